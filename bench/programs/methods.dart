// Calls at sites that meet one class.
class Counter {
  next(x) => x + 1;
}
main() {
  var c = Counter();
  var i = 0;
  while (i < 1000000) i = c.next(i);
  print(i);
}
