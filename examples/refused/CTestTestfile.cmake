add_test(passes "/bin/true")

add_tests(late "/bin/true")
add_tests(later "/bin/true")
