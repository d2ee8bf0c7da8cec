// The sum of a list, again and again.
main() {
  var all = [];
  for (var i = 0; i < 1000; i++) all.add(i);
  var sum = 0;
  for (var turn = 0; turn < 500; turn++) {
    for (var i = 0; i < all.length; i++) sum = sum + all[i];
  }
  print(sum);
}
