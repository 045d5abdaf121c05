add_test(writes "./writes")
add_test(reads "./reads")
