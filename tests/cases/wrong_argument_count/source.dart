class B { m() => 1; }
main() { print(B().m(2)); }
