// Shapes that say which points they have, and a picture of one.
// bin/dart_sites run 10000 1 main < examples/shapes.dart
abstract class Shape {
  has(x, y);
  without(other) => Without(this, other);
}

class Disk extends Shape {
  final column;
  final row;
  final radius;
  Disk(this.column, this.row, this.radius);
  @override
  has(x, y) => square(x - column) + square(y - row) <= square(radius);
}

class Box extends Shape {
  final left;
  final top;
  final size;
  Box(this.left, this.top, this.size);
  @override
  has(x, y) => x >= left && x < left + size && y >= top && y < top + size;
}

class Without extends Shape {
  final whole;
  final hole;
  Without(this.whole, this.hole);
  @override
  has(x, y) => whole.has(x, y) && !hole.has(x, y);
}

square(n) => n * n;

draw(shape, width, height) {
  for (var y = 0; y < height; y++) {
    var line = '';
    for (var x = 0; x < width; x++) {
      line += shape.has(x, y) ? '##' : '..';
    }
    print(line);
  }
}

main() {
  var face = Disk(6, 6, 6).without(Box(3, 4, 2)).without(Disk(8, 4, 1)).without(Box(5, 8, 3));
  draw(face, 13, 13);
}
