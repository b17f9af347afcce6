"""Tasks of an operating system that hand packets to one another: objects, methods, attributes and lists."""


class Packet:
    def __init__(self, link, owner, kind):
        self.link, self.owner, self.kind = link, owner, kind
        self.datum = 0
        self.data = [0] * 4

    def append_to(self, queue):
        """The queue with this packet at its end."""
        self.link = None
        if queue is None:
            return self
        last = queue
        while last.link is not None:
            last = last.link
        last.link = self
        return queue


class Task:
    """A task: it runs while it is ready, and waits for packets."""

    def __init__(self, system, number, priority, queue, is_waiting):
        self.system, self.number, self.priority, self.queue = system, number, priority, queue
        self.is_waiting, self.is_held = is_waiting, False
        system.add(self)

    def run(self):
        packet = None
        if self.is_waiting and self.queue is not None:
            self.is_waiting = False
        if self.queue is not None:
            packet, self.queue = self.queue, self.queue.link
        return self.work(packet)

    def wait(self):
        self.is_waiting = True
        return self

    def hold(self):
        self.system.held += 1
        self.is_held = True
        return self.system.after(self)

    def send(self, packet):
        """Hands a packet to its task. The task that runs next."""
        return self.system.send(packet, self)

    def receive(self, packet, sender):
        if self.queue is None:
            self.queue = packet
            packet.link = None
            if self.priority > sender.priority:
                return self
        else:
            packet.append_to(self.queue)
        return sender


class Idle(Task):
    def __init__(self, *words):
        self.control, self.count = 1, 2000
        super().__init__(*words)

    def work(self, packet):
        self.count -= 1
        if self.count == 0:
            return self.hold()
        if self.control & 1 == 0:
            self.control //= 2
            return self.system.release(DEVICE_A)
        self.control = self.control // 2 ^ 0xD008
        return self.system.release(DEVICE_B)


class Worker(Task):
    def __init__(self, *words):
        self.target, self.letter = HANDLER_A, 0
        super().__init__(*words)

    def work(self, packet):
        if packet is None:
            return self.wait()
        self.target = HANDLER_B if self.target == HANDLER_A else HANDLER_A
        packet.owner, packet.datum = self.target, 0
        for at in range(4):
            self.letter = self.letter % 26 + 1
            packet.data[at] = 64 + self.letter
        return self.send(packet)


class Handler(Task):
    def __init__(self, *words):
        self.works = self.devices = None
        super().__init__(*words)

    def work(self, packet):
        if packet is not None:
            if packet.kind == WORK:
                self.works = packet.append_to(self.works)
            else:
                self.devices = packet.append_to(self.devices)
        if self.works is None:
            return self.wait()
        work = self.works
        if work.datum >= 4:
            self.works = work.link
            return self.send(work)
        if self.devices is None:
            return self.wait()
        device, self.devices = self.devices, self.devices.link
        device.datum = work.data[work.datum]
        work.datum += 1
        return self.send(device)


class Device(Task):
    def __init__(self, *words):
        self.pending = None
        super().__init__(*words)

    def work(self, packet):
        if packet is None:
            if self.pending is None:
                return self.wait()
            packet, self.pending = self.pending, None
            return self.send(packet)
        self.pending = packet
        return self.hold()


class System:
    def __init__(self):
        self.tasks, self.by_number = [], {}
        self.held = self.sent = 0

    def add(self, task):
        self.tasks.insert(0, task)
        self.by_number[task.number] = task

    def after(self, task):
        at = self.tasks.index(task) + 1
        return self.tasks[at] if at < len(self.tasks) else None

    def release(self, number):
        task = self.by_number[number]
        task.is_held = False
        return task

    def send(self, packet, sender):
        self.sent += 1
        target = self.by_number[packet.owner]
        packet.owner = sender.number
        packet.link = None
        return target.receive(packet, sender)

    def run(self):
        task = self.tasks[0]
        while task is not None:
            if task.is_held or (task.is_waiting and task.queue is None):
                task = self.after(task)
            else:
                task = task.run()


IDLE, WORKER, HANDLER_A, HANDLER_B, DEVICE_A, DEVICE_B = range(6)
DEVICE, WORK = range(2)


def packets(owner, kind, count):
    queue = None
    for _ in range(count):
        queue = Packet(queue, owner, kind)
    return queue


def main():
    system = System()
    Idle(system, IDLE, 0, None, False)
    Worker(system, WORKER, 1000, packets(HANDLER_A, WORK, 2), True)
    Handler(system, HANDLER_A, 2000, packets(DEVICE_A, DEVICE, 3), True)
    Handler(system, HANDLER_B, 3000, packets(DEVICE_B, DEVICE, 3), True)
    Device(system, DEVICE_A, 4000, None, True)
    Device(system, DEVICE_B, 5000, None, True)
    system.run()
    print(system.sent, system.held)


main()
