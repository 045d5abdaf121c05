add_test(card "./card")
set_tests_properties(card PROPERTIES RESOURCE_GROUPS "gpus:1")
