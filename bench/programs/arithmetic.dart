// Integers: sums, products, shifts and remainders.
main() {
  var a = 1;
  var b = 7;
  for (var i = 0; i < 500000; i++) {
    a = (a * 31 + b) & 65535;
    b = (b ^ (a << 3)) % 10007 + (i >> 2);
  }
  print(a);
  print(b);
}
