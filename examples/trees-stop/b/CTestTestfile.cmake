add_test(second "/bin/true")
add_test(third "/bin/true")
