add_test(ok "/bin/true")
