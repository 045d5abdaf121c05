add_test(absent "/no/such/program")
add_test(unnamed "no-such-program")
add_test(data "./not-a-program")
add_test(passes "/bin/true")
