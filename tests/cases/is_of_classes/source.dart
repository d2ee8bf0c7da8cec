// `is` goes by the class and by what is above it. Null is of class Null alone.
abstract class I {}
class A implements I {}
class B extends A {}
class C {}
main() {
  print(B() is A);
  print(B() is I);
  print(B() is Object);
  print(A() is B);
  print(C() is I);
  print(C() is! I);
  print(null is Null);
  print(null is Object);
  print(null is! C);
  print(1 is int);
  print('' is String);
  print([] is List);
  print(true is bool);
  print(1 is Object);
}
