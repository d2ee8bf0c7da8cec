class A { m(x) => x; }
class B extends A { m() => 1; }
