// A site that meets eight classes.
class A { m() => 1; }
class B { m() => 2; }
class C { m() => 3; }
class D { m() => 4; }
class E { m() => 5; }
class F { m() => 6; }
class G { m() => 7; }
class H { m() => 8; }
main() {
  var all = [A(), C(), B(), D(), H(), G(), F(), E()];
  var sum = 0;
  for (var i = 0; i < 600000; i++) sum = sum + all[i & 7].m();
  print(sum);
}
