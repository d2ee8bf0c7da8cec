// A member of `super` is the first with a body above the class that holds the expression, whatever the object's class.
class A {
  var field = 'A.field';
  m() => 'A.m';
  get g => 'A.g';
  set g(v) { print('A.g = $v'); }
}
abstract class B extends A {
  m();
  get g;
}
class C extends B {
  m() => 'C.m over ${super.m()}';
  get g => 'C.g over ${super.g}';
  set g(v) { super.g = v + 1; }
  twice() { print(super.field); super.field = 'new'; print(field); }
  toString() => 'C';
  text() => super.toString();
}
class D extends C {
  m() => 'D.m over ${super.m()}';
}
main() {
  print(C().m());
  print(D().m());
  print(D().g);
  D().g = 1;
  D().twice();
  print(D().text());
}
