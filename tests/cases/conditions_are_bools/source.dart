// `!`, `&&`, `||`, `?:` and conditions need a bool. The right side is evaluated only where it is needed, and is a bool too.
say(text, v) { print(text); return v; }
main() {
  print(say('false', false) && say('not this', true));
  print(say('true', true) || say('not this', false));
  print(say('true', true) && say('and this', false));
  print(say('false', false) || say('and this', true));
  print(say('which', true) ? say('yes', 1) : say('no', 2));
  print(!say('not', false));
}
@pragma('vm:entry-point')
e1() { print(!1); }
@pragma('vm:entry-point')
e2() { print(true && 1); }
@pragma('vm:entry-point')
e3() { print(false || null); }
@pragma('vm:entry-point')
e4() { print('x' ? 1 : 2); }
@pragma('vm:entry-point')
e5() { if (0) print('no'); else print('no'); }
@pragma('vm:entry-point')
e6() { do { print('once'); } while (null); }
