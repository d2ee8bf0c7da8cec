class Counter {
  one() => 1;
  two() => 2;
}
main() {
  print(Counter().two());
  print(Counter().one());
  print(Counter().two());
}
