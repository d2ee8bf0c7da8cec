// A compound assignment evaluates its receiver and its index once, reads, evaluates the right side, calls the operator, writes.
class N {
  var n;
  N(this.n);
  operator +(v) { print('$n + $v'); return N(n + v); }
  toString() => 'N $n';
}
class A {
  var kept;
  A(this.kept);
  get x { print('get'); return kept; }
  set x(v) { print('set $v'); kept = v; }
  operator [](i) { print('[] $i'); return N(i); }
  operator []=(i, v) { print('[]= $i $v'); }
}
say(text, v) { print(text); return v; }
main() {
  var a = A(N(1));
  print(say('receiver', a).x += say('right', 2));
  print(say('receiver', a)[say('index', 5)] += say('right', 6));
  print(++say('receiver', a).x);
  print(say('receiver', a).x++);
  print(a.x);
  var i = 3;
  print(i++ + i);
  print(--i);
}
