class Packet:
    def __init__(self, value):
        self.link = None
        self.value = value


class Task:
    def __init__(self):
        self.queue = None
        self.last = None

    def put(self, packet):
        if self.queue is None:
            self.queue = packet
        else:
            self.last.link = packet
        self.last = packet

    def take(self):
        packet = self.queue
        self.queue = packet.link
        packet.link = None
        return packet

    def ready(self):
        return self.queue is not None


class Idle(Task):
    def __init__(self, left):
        super().__init__()
        self.left = left
        self.seed = 1

    def ready(self):
        return self.left > 0

    def run(self, scheduler):
        self.left = self.left - 1
        self.seed = (self.seed * 73 + 41) & 1023
        scheduler.send(1 + (self.seed & 1), Packet(self.seed))


class Worker(Task):
    def __init__(self):
        super().__init__()
        self.sum = 0

    def run(self, scheduler):
        packet = self.take()
        self.sum = (self.sum + packet.value) & 65535
        scheduler.send(2, packet)


class Handler(Task):
    def __init__(self):
        super().__init__()
        self.count = 0

    def run(self, scheduler):
        packet = self.take()
        self.count = self.count + 1
        packet.value = packet.value ^ (self.count & 255)
        scheduler.send(3, packet)


class Device(Task):
    def __init__(self):
        super().__init__()
        self.total = 0

    def run(self, scheduler):
        self.total = (self.total * 7 + self.take().value) & 1048575


class Scheduler:
    def __init__(self, tasks):
        self.tasks = tasks
        self.switches = 0

    def send(self, to, packet):
        self.tasks[to].put(packet)

    def run(self):
        busy = True
        while busy:
            busy = False
            for task in self.tasks:
                if task.ready():
                    busy = True
                    self.switches = self.switches + 1
                    task.run(self)


def main():
    device = Device()
    scheduler = Scheduler([Idle(40000), Worker(), Handler(), device])
    scheduler.run()
    print(scheduler.switches)
    print(device.total)


main()
