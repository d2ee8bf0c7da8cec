// Areas of shapes. A call that no class has goes to noSuchMethod.
// bin/dart_sites run 10000 1 main < examples/areas.dart
abstract class Shape {
  area();
  toString() => 'a shape of ${area()}';
  noSuchMethod(call) => 'no ${call.memberName} here';
}

class Square extends Shape {
  final side;
  Square(this.side);
  area() => side * side;
}

class Rectangle extends Shape {
  final width;
  final height;
  Rectangle(this.width, this.height);
  area() => width * height;
}

main() {
  var shapes = [Square(2), Rectangle(2, 3)];
  var sum = 0;
  for (var i = 0; i < shapes.length; i++) {
    print(shapes[i]);
    sum += shapes[i].area();
  }
  print('in all $sum');
  print(shapes[0].corners());
}
