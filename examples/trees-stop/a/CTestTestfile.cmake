add_test(fails "/bin/false")
