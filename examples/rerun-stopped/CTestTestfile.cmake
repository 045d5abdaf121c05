add_test(passes "true")
add_test(mended "sh" "-c" "test -e mended")
add_test(later "true")
