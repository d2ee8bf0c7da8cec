// Strings joined by interpolation and by `+`.
main() {
  var length = 0;
  for (var turn = 0; turn < 2000; turn++) {
    var text = '';
    for (var i = 0; i < 60; i++) text = text + 'x$i';
    length = length + text.length;
  }
  print(length);
}
