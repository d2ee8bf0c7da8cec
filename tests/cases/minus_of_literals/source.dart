// A minus directly before a literal is the literal, and no call; any other calls `unary-`.
class A {
  operator -() { print('unary-'); return 'minus'; }
  operator ~() { print('~'); return 'not'; }
}
main() {
  print(-5);
  print(-9223372036854775808);
  print(-0x8000000000000000);
  print(-(5));
  print(- -5);
  print(-A());
  print(~A());
  print(~5);
}
