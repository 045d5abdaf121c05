add_test(segfault "./dies" "SEGV")
add_test(killed "./dies" "KILL")
add_test(passes "/bin/true")
