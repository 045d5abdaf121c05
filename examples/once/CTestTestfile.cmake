add_test(marks "./marks")
add_test(once "./once")
