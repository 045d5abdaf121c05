add_test(draws "../uses_card")
add_test(paints "../uses_card")
set_tests_properties(draws paints PROPERTIES RESOURCE_GROUPS "gpus:4")
