// A list put in order by insertion.
main() {
  var all = [];
  var x = 12345;
  for (var i = 0; i < 900; i++) {
    x = (x * 1103515245 + 12345) & 2147483647;
    all.add(x);
  }
  for (var i = 1; i < all.length; i++) {
    var item = all[i];
    var j = i - 1;
    while (j >= 0 && all[j] > item) {
      all[j + 1] = all[j];
      j = j - 1;
    }
    all[j + 1] = item;
  }
  print(all[0]);
  print(all[899]);
}
