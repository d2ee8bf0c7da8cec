// An arrow body answers its expression; a body that ends without `return`, and `return;`, answer null.
class A {
  arrow() => 1;
  block() { 2; }
  bare(x) { if (x) return; return 3; }
  get none {}
  A() { return; }
}
arrow() => print('arrow');
main() {
  var a = A();
  print(a.arrow());
  print(a.block());
  print(a.bare(true));
  print(a.bare(false));
  print(a.none);
  print(arrow());
  print(a is A);
}
