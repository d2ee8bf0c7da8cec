class A { m() => 1; }
class B extends A {}
class C extends A { m() => 2; }
class D extends A {}
f(o) => print(o.m());
main() { f(B()); f(D()); }
