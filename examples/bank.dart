// A bank whose accounts differ in what may be taken from them.
// bin/dart_sites run 10000 1 main < examples/bank.dart
abstract class Account {
  final owner;
  var balance = 0;
  Account(this.owner);
  canPay(amount);
  deposit(amount) {
    balance += amount;
  }
  withdraw(amount) {
    balance -= amount;
  }
  toString() => '$owner has $balance';
}

class Savings extends Account {
  Savings(owner) : super(owner);
  @override
  canPay(amount) => amount <= balance;
}

class Credit extends Account {
  final limit;
  Credit(owner, this.limit) : super(owner);
  @override
  canPay(amount) => amount <= balance + limit;
}

transfer(from, to, amount) {
  if (!from.canPay(amount)) {
    print('${from.owner} cannot pay $amount');
    return;
  }
  from.withdraw(amount);
  to.deposit(amount);
  print('${from.owner} pays ${to.owner} $amount');
}

main() {
  var ada = Savings('Ada');
  var grace = Credit('Grace', 50);
  ada.deposit(100);
  grace.deposit(100);
  transfer(ada, grace, 120);
  transfer(grace, ada, 120);
  transfer(ada, grace, 120);
  print([ada, grace]);
}
