# Each test asks for cores of one node, and is started on the node that ctest chose.
add_test(half_1 "../on_node" "../meet" "4")
add_test(half_2 "../on_node" "../meet" "4")
add_test(half_3 "../on_node" "../meet" "4")
add_test(half_4 "../on_node" "../meet" "4")
set_tests_properties(half_1 half_2 half_3 half_4 PROPERTIES RESOURCE_GROUPS "nodes:2")
add_test(too_wide "../on_node" "/bin/true")
set_tests_properties(too_wide PROPERTIES RESOURCE_GROUPS "nodes:5")
