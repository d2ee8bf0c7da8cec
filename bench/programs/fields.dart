// Reads and writes of fields.
class Point {
  var x;
  var y;
  Point(this.x, this.y);
}
main() {
  var p = Point(0, 1);
  while (p.x < 700000) {
    p.x = p.x + p.y;
    p.y = 2 - p.y;
    p.y = 2 - p.y;
  }
  print(p.x);
}
