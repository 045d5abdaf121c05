# Real programs of known lengths: what made the run so long, with a fixture and a lock.
add_test(prepare sleep 0.2)
add_test(first sleep 0.5)
add_test(second sleep 0.3)
set_tests_properties(prepare PROPERTIES FIXTURES_SETUP ground)
set_tests_properties(first second PROPERTIES FIXTURES_REQUIRED ground RESOURCE_LOCK one)
