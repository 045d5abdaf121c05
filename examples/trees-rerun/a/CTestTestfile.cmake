add_test(t "/bin/true")
