// The letters of a string, one by one.
main() {
  var text = 'the quick brown fox jumps over the lazy dog';
  var sum = 0;
  for (var turn = 0; turn < 10000; turn++) {
    for (var i = 0; i < text.length; i++) sum = sum + text.codeUnitAt(i);
  }
  print(sum);
}
