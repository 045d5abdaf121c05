add_test(passes "true")
