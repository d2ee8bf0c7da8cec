// `while` tests and spends a turn; `do` spends a turn and tests behind its body; `continue` of a `for` does its last part.
say(text, v) { print(text); return v; }
main() {
  for (var i = 0; i < 3; i++, print('last')) {
    if (i == 1) continue;
    print(i);
  }
  var n = 0;
  while (n < 2) { n++; if (n == 1) continue; print('while $n'); }
  do { n++; if (n == 3) continue; break; } while (n < 9);
  for (;;) { if (n > 5) break; n++; }
  print(n);
}
@pragma('vm:entry-point')
twelve() { var i = 0; while (i < 11) i++; print(i); }
@pragma('vm:entry-point')
eleven() { var i = 0; while (i < 12) i++; print(i); }
