class P { m() => 1; }
class Q { m() => 2; }
class R { m() => 3; }
class S { m() => 4; }
class T { m() => 5; }
f(o) => print(o.m());
main() { f(P()); f(Q()); f(R()); f(S()); }
@pragma('vm:entry-point')
five() { main(); f(T()); }
