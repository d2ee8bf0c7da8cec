// Each expression of a string is evaluated and its `toString` called at once, from left to right.
class A {
  var name;
  A(this.name);
  toString() { print('text of $name'); return name; }
}
class B {
  toString() => 5;
}
make(name) { print('make $name'); return A(name); }
main() {
  print('${make('a')} and ${make('b')}');
  var c = A('c');
  print('$c$c');
  print('${1}${null}${true}${[1, 'x']}');
}
@pragma('vm:entry-point')
second() { print('${make('a')}${B()}${make('b')}'); }
