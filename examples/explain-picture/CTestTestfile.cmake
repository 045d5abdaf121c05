# What a picture shows: bars that passed and failed, a chain over two workers, and a name that is escaped.
add_test(a x)
add_test("b<c" x)
add_test(d x)
set_tests_properties(a "b<c" PROPERTIES RESOURCE_LOCK l)
