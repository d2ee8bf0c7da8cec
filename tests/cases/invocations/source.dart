// A call that no member takes makes an Invocation with the name, the arguments and the kind, behind its receiver and arguments.
class A {
  one(x) => x;
  noSuchMethod(call) {
    print('${call.memberName} ${call.positionalArguments} ${call.isMethod} ${call.isGetter} ${call.isSetter}');
    return call.positionalArguments;
  }
}
say(text, v) { print(text); return v; }
main() {
  var a = A();
  print(say('receiver', a).two(say('first', 1), say('second', 2)));
  print(a.one());
  print(a.x);
  print(a.x = 3);
  print(a + 4);
  print(a[5]);
  print(a[6] = 7);
  print(-a);
  print(a.x += [8]);
}
