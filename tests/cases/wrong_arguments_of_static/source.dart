f(a) => a;
main() {
  f();
}
