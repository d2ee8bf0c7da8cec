// Arguments, then the object with the literals of its fields; `this.x`, the arguments of `super`, the superclass's constructor, the body.
say(text, v) { print(text); return v; }
class A {
  var a = 1;
  var b;
  A(x, y) { print('A $a $b $x $y'); a = x; later(); }
  later() { print('A.later'); }
}
class B extends A {
  var c = 'c';
  var d = 'd';
  B(this.d, x) : super(say('first', x), say('second', d)) { print('B $a $b $c $d $x'); d = 4; }
  later() { print('B.later $c $d'); }
}
class C extends B {
  C(x) : super(x = 5, x) { print('C $x'); }
}
class D {
  var e = 7;
}
main() {
  var b = B(say('one', 1), say('two', 2));
  print(b.d);
  print(C(3).a);
  print(D().e);
}
