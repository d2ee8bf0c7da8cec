abstract class A {}
main() {
  A();
}
