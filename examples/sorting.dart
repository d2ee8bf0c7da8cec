// One sort for numbers and for cards: its call of `<` meets two classes.
// bin/dart_sites run 10000 1 main < examples/sorting.dart
class Card {
  final rank;
  final suit;
  Card(this.rank, this.suit);
  operator <(other) => suit == other.suit ? rank < other.rank : suit < other.suit;
  toString() => '$rank of ${suits()[suit]}';
}

suits() => ['clubs', 'diamonds', 'hearts', 'spades'];

sort(all) {
  for (var i = 1; i < all.length; i++) {
    final item = all[i];
    var j = i;
    while (j > 0 && item < all[j - 1]) {
      all[j] = all[j - 1];
      j--;
    }
    all[j] = item;
  }
  return all;
}

main() {
  print(sort([5, 2, 9, 1, 7]));
  print(sort([Card(9, 3), Card(2, 0), Card(4, 3), Card(10, 1)]));
}
