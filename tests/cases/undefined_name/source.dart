main() {
  print(x);
}
