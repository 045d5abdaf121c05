add_test(passes "/bin/true")
