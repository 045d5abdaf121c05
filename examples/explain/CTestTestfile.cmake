add_test(a x)
add_test(b x)
set_tests_properties(a b PROPERTIES RESOURCE_LOCK l)
