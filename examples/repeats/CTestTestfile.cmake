add_test(settles "./settles")
add_test(fails "/bin/false")
