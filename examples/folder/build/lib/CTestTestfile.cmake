add_test(lib_t "../../here")
