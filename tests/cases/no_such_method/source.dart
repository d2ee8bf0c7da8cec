class A {
  noSuchMethod(i) { print('${i.memberName} ${i.positionalArguments}'); return 5; }
}
main() { var a = A(); print(a.foo(1, 2)); a.x = 3; print(a.x); }
