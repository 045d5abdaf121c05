# 10 MiB on each output in turns: neither pipe may fill for good.
add_test(writes "./writes")
set_tests_properties(writes PROPERTIES PASS_REGULAR_EXPRESSION "last of the output.*last of the errors")
# What is left behind holds the pipe for half a second; the test ends with it.
add_test(leaves "sh" "-c" "(sleep 0.5; echo late) & echo early")
set_tests_properties(leaves PROPERTIES PASS_REGULAR_EXPRESSION "early.*late")
# The output is closed early; the errors are still heard.
add_test(closes "sh" "-c" "exec >&-; sleep 0.1; echo heard >&2")
set_tests_properties(closes PROPERTIES PASS_REGULAR_EXPRESSION "heard")
# The standard error stands behind the standard output, whichever came first.
add_test(orders "sh" "-c" "echo second >&2; echo first")
set_tests_properties(orders PROPERTIES PASS_REGULAR_EXPRESSION "^first.*second")
