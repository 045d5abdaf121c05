add_test(passes "/bin/true")
add_test(greets "/bin/echo" "hello")
add_test(fails "/bin/false")
