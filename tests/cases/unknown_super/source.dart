class A { m() => x; }
class B extends C {}
