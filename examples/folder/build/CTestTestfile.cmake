add_test([=[unit one]=] "/bin/true" "--fast" "a;b")
set_tests_properties([=[unit one]=] PROPERTIES LABELS "core;fast")
subdirs("lib")
subdirs("none")
