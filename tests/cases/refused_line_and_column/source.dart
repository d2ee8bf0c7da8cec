class A {
  m() => 7
}
