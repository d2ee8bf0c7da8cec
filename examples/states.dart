// The five states of a call site. Each of the five functions has one call of `sound`, and they differ in whom they hear.
// bin/dart_sites run 10000 1 main < examples/states.dart
class Animal { sound() => 'hm'; }
class Dog extends Animal { sound() => 'woof'; }
class Puppy extends Dog {}
class Cat extends Animal { sound() => 'meow'; }
class Cow extends Animal { sound() => 'moo'; }
class Duck extends Animal { sound() => 'quack'; }
class Frog extends Animal { sound() => 'ribbit'; }

// Nobody calls this one: unlinked.
never(animal) => animal.sound();

// One class: mono.
one(animal) => animal.sound();

// Neighbours in the hierarchy that share a method: single.
kin(animal) => animal.sound();

// Up to four classes with methods of their own: cached.
few(animal) => animal.sound();

// A fifth class: mega.
many(animal) => animal.sound();

main() {
  print(one(Dog()));
  print(kin(Dog()));
  print(kin(Puppy()));
  var animals = [Dog(), Cat(), Cow()];
  for (var i = 0; i < animals.length; i++) {
    print(few(animals[i]));
  }
  animals.add(Duck());
  animals.add(Frog());
  for (var i = 0; i < animals.length; i++) {
    print(many(animals[i]));
  }
}
