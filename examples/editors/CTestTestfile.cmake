add_test(greets "/bin/echo" "hello")
set_tests_properties(greets PROPERTIES LABELS "core;fast" TIMEOUT "5")
add_test(fails "/bin/false")
