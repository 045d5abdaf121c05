# Journals that are refused, one for each reason.
add_test(a true)
add_test(b true)
set_tests_properties(b PROPERTIES DEPENDS a)
add_test(c true)
set_tests_properties(a PROPERTIES FIXTURES_SETUP f)
set_tests_properties(c PROPERTIES FIXTURES_REQUIRED f)
