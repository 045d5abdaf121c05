# A limit ends an attempt, whatever holds the outputs of its program.
add_test(hangs "sleep" "30")
set_tests_properties(hangs PROPERTIES TIMEOUT "0.2")
# The shell is stopped; what it started goes on, and holds both outputs.
add_test(wraps "sh" "-c" "sleep 3; true")
set_tests_properties(wraps PROPERTIES TIMEOUT "0.2")
# The program has ended, and what it left behind holds both outputs past the limit.
add_test(leaves "sh" "-c" "sleep 3 & echo early")
set_tests_properties(leaves PROPERTIES TIMEOUT "0.2" PASS_REGULAR_EXPRESSION "early")
# Both outputs are closed, and the program runs on.
add_test(closes "sh" "-c" "exec >&- 2>&-; exec sleep 30")
set_tests_properties(closes PROPERTIES TIMEOUT "0.2")
# What would pass, and what would turn it round, does not count.
add_test(prints "sh" "-c" "echo done; exec sleep 30")
set_tests_properties(prints PROPERTIES TIMEOUT "0.2" PASS_REGULAR_EXPRESSION "done" WILL_FAIL "TRUE")
# 0 is no limit, and a program within its limit is not stopped.
add_test(naps "sleep" "0.1")
set_tests_properties(naps PROPERTIES TIMEOUT "0")
add_test(hurries "true")
set_tests_properties(hurries PROPERTIES TIMEOUT "20")
