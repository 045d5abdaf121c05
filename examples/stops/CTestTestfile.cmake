add_test(fails "/bin/false")
add_test(second "/bin/true")
add_test(third "/bin/true")
