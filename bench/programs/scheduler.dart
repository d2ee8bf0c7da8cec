// An operating system's scheduler: four kinds of task send each other packets.
class Packet {
  var link;
  var value;
  Packet(this.value);
}
abstract class Task {
  var queue;
  var last;
  put(packet) {
    if (queue == null) {
      queue = packet;
    } else {
      last.link = packet;
    }
    last = packet;
  }
  take() {
    var packet = queue;
    queue = packet.link;
    packet.link = null;
    return packet;
  }
  ready() => queue != null;
  run(scheduler);
}
class Idle extends Task {
  var left;
  var seed = 1;
  Idle(this.left);
  ready() => left > 0;
  run(scheduler) {
    left = left - 1;
    seed = (seed * 73 + 41) & 1023;
    scheduler.send(1 + (seed & 1), Packet(seed));
  }
}
class Worker extends Task {
  var sum = 0;
  run(scheduler) {
    var packet = take();
    sum = (sum + packet.value) & 65535;
    scheduler.send(2, packet);
  }
}
class Handler extends Task {
  var count = 0;
  run(scheduler) {
    var packet = take();
    count = count + 1;
    packet.value = packet.value ^ (count & 255);
    scheduler.send(3, packet);
  }
}
class Device extends Task {
  var total = 0;
  run(scheduler) {
    total = (total * 7 + take().value) & 1048575;
  }
}
class Scheduler {
  var tasks = null;
  var switches = 0;
  Scheduler(this.tasks);
  send(to, packet) {
    tasks[to].put(packet);
  }
  run() {
    var busy = true;
    while (busy) {
      busy = false;
      for (var i = 0; i < tasks.length; i++) {
        var task = tasks[i];
        if (task.ready()) {
          busy = true;
          switches = switches + 1;
          task.run(this);
        }
      }
    }
  }
}
main() {
  var device = Device();
  var scheduler = Scheduler([Idle(40000), Worker(), Handler(), device]);
  scheduler.run();
  print(scheduler.switches);
  print(device.total);
}
