class A {
  m() => 1;
  m(x) => 2;
}
main() {}
