abstract class Shape {
  area();
  toString() => 'area ${area()}';
}
class Square extends Shape {
  final side;
  Square(this.side);
  @override
  area() => side * side;
}
class Rect extends Shape {
  final w;
  final h;
  Rect(this.w, this.h);
  @override
  area() => w * h;
}
main() {
  var shapes = [Square(3), Rect(2, 5)];
  for (var i = 0; i < shapes.length; i++) {
    print(shapes[i]);
  }
}
