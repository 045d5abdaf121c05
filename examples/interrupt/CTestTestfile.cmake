add_test(one "sh" "-c" "sleep 3; : >one")
add_test(two "sh" "-c" "sleep 3; : >two")
