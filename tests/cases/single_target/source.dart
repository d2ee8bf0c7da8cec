class A { m() => 1; }
class B extends A {}
class C extends A {}
f(o) => print(o.m());
main() { f(B()); f(C()); }
