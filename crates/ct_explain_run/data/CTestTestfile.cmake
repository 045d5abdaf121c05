add_test(ok "true")
