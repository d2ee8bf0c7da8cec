// The receiver, then the arguments from left to right, then the call. What a setter answers is dropped.
class A {
  var kept = 0;
  two(x, y) { print('two'); return x + y; }
  get seen { print('get'); return kept; }
  set seen(v) { print('set $v'); kept = v; return 99; }
  operator [](i) { print('[] $i'); return i; }
  operator []=(i, v) { print('[]= $i $v'); return 99; }
}
class B {
  noSuchMethod(call) { print('nsm ${call.memberName}'); return 99; }
}
say(text, v) { print(text); return v; }
main() {
  var a = A();
  print(say('receiver', a).two(say('first', 1), say('second', 2)));
  print(say('receiver', a).seen = say('value', 3));
  print(say('receiver', a).seen);
  print(say('receiver', a)[say('index', 4)]);
  print(say('receiver', a)[say('index', 5)] = say('value', 6));
  print(B().x = 7);
}
