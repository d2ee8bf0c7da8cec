// Both sides of `==` are evaluated. With null on either side no `==` is called; an answer that is no bool ends the entry.
class A {
  operator ==(other) { print('=='); return true; }
}
class B {
  operator ==(other) => 5;
}
say(text, v) { print(text); return v; }
main() {
  print(say('left', A()) == say('right', 1));
  print(say('left', A()) == say('right', null));
  print(say('left', null) == say('right', A()));
  print(say('left', null) == say('right', null));
  print(A() != 1);
  print(A() != null);
}
@pragma('vm:entry-point')
second() { print(B() == null); print(B() == 1); }
@pragma('vm:entry-point')
third() { print(B() != null); print(B() != 1); }
