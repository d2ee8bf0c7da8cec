f() {}
main() {
  print(f);
}
