add_test(zero "./exits" "0")
add_test(one "./exits" "1")
add_test(seven "./exits" "7")
add_test(most "./exits" "255")
