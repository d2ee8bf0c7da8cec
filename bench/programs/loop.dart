// An empty loop.
main() {
  var i = 0;
  while (i < 2000000) i = i + 1;
  print(i);
}
