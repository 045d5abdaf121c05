add_test(none "./counts" "0")
add_test(three "./counts" "3" "one" "two" "three")
add_test(here "/usr/bin/test" "-f" "counts")
