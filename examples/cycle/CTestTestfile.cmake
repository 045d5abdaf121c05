add_test(first "/bin/true")
add_test(turns "/bin/true")
set_tests_properties(turns PROPERTIES FIXTURES_SETUP "ring" FIXTURES_REQUIRED "ring")
