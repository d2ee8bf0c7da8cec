// A site that meets four classes.
class A { m() => 1; }
class B { m() => 2; }
class C { m() => 3; }
class D { m() => 4; }
main() {
  var all = [A(), C(), B(), D()];
  var sum = 0;
  for (var i = 0; i < 600000; i++) sum = sum + all[i & 3].m();
  print(sum);
}
