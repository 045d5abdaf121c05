add_test(good "/bin/true")
add_test(bad "/bin/false")
