class A { var y = 0; }
class B { y() => 1; }
main() {}
