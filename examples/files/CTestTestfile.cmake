add_test(passes "true")
add_test([=[fails here]=] "false")
add_test(skips "sh" "-c" "exit 77")
set_tests_properties(skips PROPERTIES SKIP_RETURN_CODE "77")
