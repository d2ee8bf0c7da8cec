main() {
  final x = 1;
  x = 2;
}
