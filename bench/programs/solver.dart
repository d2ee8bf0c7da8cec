// A constraint solver: a plan of one-way constraints along a chain, carried out again for each new input.
class Variable {
  var value;
  var by = null;
  var mark = 0;
  Variable(this.value);
}
abstract class Constraint {
  var output;
  Constraint(this.output);
  isReady(mark);
  execute();
  choose() {
    output.by = this;
  }
}
class Stay extends Constraint {
  Stay(output) : super(output);
  isReady(mark) => true;
  execute() {}
}
class Edit extends Constraint {
  var next = 0;
  Edit(output) : super(output);
  isReady(mark) => true;
  execute() {
    output.value = next;
  }
}
class Equal extends Constraint {
  var input;
  Equal(this.input, output) : super(output);
  isReady(mark) => input.mark == mark;
  execute() {
    output.value = input.value;
  }
}
class Scale extends Constraint {
  var input;
  var factor;
  var offset;
  Scale(this.input, this.factor, this.offset, output) : super(output);
  isReady(mark) => input.mark == mark && factor.mark == mark && offset.mark == mark;
  execute() {
    output.value = (input.value * factor.value + offset.value) & 1048575;
  }
}
class Planner {
  var constraints = null;
  var mark = 0;
  Planner(this.constraints);
  plan() {
    mark = mark + 1;
    var order = [];
    var waiting = constraints;
    while (waiting.length > 0) {
      var later = [];
      for (var i = 0; i < waiting.length; i++) {
        var c = waiting[i];
        if (c.isReady(mark)) {
          c.choose();
          c.output.mark = mark;
          order.add(c);
        } else {
          later.add(c);
        }
      }
      waiting = later;
    }
    return order;
  }
}
main() {
  var factor = Variable(3);
  var offset = Variable(7);
  var first = Variable(0);
  var edit = Edit(first);
  var all = [Stay(factor), Stay(offset), edit];
  var at = first;
  for (var i = 0; i < 200; i++) {
    var next = Variable(0);
    if (i % 2 == 0) {
      all.add(Equal(at, next));
    } else {
      all.add(Scale(at, factor, offset, next));
    }
    at = next;
  }
  var planner = Planner(all);
  var sum = 0;
  for (var turn = 0; turn < 10; turn++) {
    var order = planner.plan();
    for (var k = 0; k < 60; k++) {
      edit.next = turn * 100 + k;
      for (var i = 0; i < order.length; i++) order[i].execute();
      sum = (sum + at.value) & 1048575;
    }
  }
  print(sum);
}
