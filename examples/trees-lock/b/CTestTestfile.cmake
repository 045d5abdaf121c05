add_test(writes "../writes")
set_tests_properties(writes PROPERTIES RESOURCE_LOCK "base")
add_test(meets "../meets" "a")
set_tests_properties(meets PROPERTIES RESOURCE_LOCK "right")
