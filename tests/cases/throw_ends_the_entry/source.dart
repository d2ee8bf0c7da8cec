// `throw` ends the entry with the text of its value; with null it is a TypeFault.
class A {
  toString() { print('not asked'); return 'text'; }
}
main() { print('before'); throw 'a text'; }
@pragma('vm:entry-point')
e1() { throw 5; }
@pragma('vm:entry-point')
e2() { throw A(); }
@pragma('vm:entry-point')
e3() { throw null; }
