#!/usr/bin/env python3
"""A slow line that loses, between members of one group that are processes of their own.

    relay.py udp|tcp MEMBERS SECONDS COUNTS [PART=N]..

Prints a line for each member: the `--peer` words that it is to be begun with, in which the relay stands in place of each other member.
Then it carries what they say for so many seconds at most, or until it is told to end (SIGTERM), and writes what it did to the file
COUNTS. It binds 127.0.0.1 alone.

Each message is held for 20 milliseconds. Over UDP 10 of 100 datagrams are lost, 2 of 100 are sent twice, and 10 of 100 are held for 20
to 60 milliseconds more, so that later ones overtake them. Over TCP a connection is cut behind 150 to 1,500 bytes, at most 5 times
between each two members: half of the oldest bytes that are under way still come, and all others are lost. All that is random comes from
one seed. PART=N changes a part: lose=100 loses all, lose=0 none; cuts=0 cuts none.
"""
import collections
import heapq
import itertools
import random
import selectors
import signal
import socket
import struct
import sys
import time

HOST = "127.0.0.1"
SEED = 4710
DELAY = 0.020
# so much longer some datagrams are held, at least and at most
LATE = (0.020, 0.060)
# behind so many bytes a connection is cut, at least and at most
CUT = (150, 1500)
ROOM = 65536


def bound(kind):
    """A socket at a port that is free."""
    made = socket.socket(socket.AF_INET, kind)
    made.bind((HOST, 0))
    made.setblocking(False)
    return made


class Loop:
    """Calls what is due, and what has something to read."""

    def __init__(self, seconds):
        self.end = time.monotonic() + seconds
        self.selector = selectors.DefaultSelector()
        self.due = []
        self.order = itertools.count()

    def read(self, its_socket, call):
        self.selector.register(its_socket, selectors.EVENT_READ, call)

    def forget(self, its_socket):
        """Nothing is read from it any more."""
        if its_socket in self.selector.get_map():
            self.selector.unregister(its_socket)

    def after(self, delay, call):
        heapq.heappush(self.due, (time.monotonic() + delay, next(self.order), call))

    def stop(self):
        self.end = 0

    def run(self):
        while (now := time.monotonic()) < self.end:
            while self.due and self.due[0][0] <= now:
                heapq.heappop(self.due)[2]()
            until = self.due[0][0] if self.due else self.end
            for key, _ in self.selector.select(max(0, min(until, self.end, now + 0.2) - now)):
                key.data()


class Datagrams:
    """Of each two members each has a socket of the relay in place of the other, by which it knows it."""

    kind = socket.SOCK_DGRAM

    def __init__(self, loop, addresses, parts, counts):
        self.loop, self.addresses, self.counts = loop, addresses, counts
        self.lose = parts.get("lose", 10)
        self.random = random.Random(SEED)
        self.fates = []
        self.numbers = collections.Counter()
        self.last = collections.Counter()
        pairs = itertools.permutations(range(len(addresses)), 2)
        self.doors = {pair: bound(self.kind) for pair in pairs}
        for pair, door in self.doors.items():
            loop.read(door, lambda pair=pair: self.take(*pair))

    def fate(self):
        """Of each hundred datagrams so many are lost, two repeated and ten late; the seed says which."""
        if not self.fates:
            others = ["repeated"] * 2 + ["late"] * 10 + ["in time"] * 100
            self.fates = (["dropped"] * self.lose + others)[:100]
            self.random.shuffle(self.fates)
        return self.fates.pop()

    def take(self, sender, to):
        """What the sender said to the socket that stands there in place of the other member."""
        datagram, source = self.doors[sender, to].recvfrom(ROOM)
        if source != self.addresses[sender]:
            return
        fate = self.fate()
        self.counts["came"] += 1
        self.counts[fate] += 1
        self.numbers[sender, to] += 1
        if fate == "dropped":
            return
        delay = DELAY + (self.random.uniform(*LATE) if fate == "late" else 0)
        number = self.numbers[sender, to]
        for _ in range(2 if fate == "repeated" else 1):
            self.loop.after(delay, lambda: self.give(sender, to, number, datagram))

    def give(self, sender, to, number, datagram):
        """It goes on from the socket by which the receiver knows the sender."""
        if number < self.last[sender, to]:
            self.counts["overtaken"] += 1
        self.last[sender, to] = max(number, self.last[sender, to])
        try:
            self.doors[to, sender].sendto(datagram, self.addresses[to])
        except OSError:
            self.counts["not taken"] += 1


class Streams:
    """A member that calls another one is connected with it by two connections, with the relay in between."""

    kind = socket.SOCK_STREAM

    def __init__(self, loop, addresses, parts, counts):
        self.loop, self.addresses, self.counts = loop, addresses, counts
        self.random = random.Random(SEED)
        self.left = collections.Counter()
        pairs = itertools.permutations(range(len(addresses)), 2)
        self.doors = {pair: bound(self.kind) for pair in pairs}
        for pair, door in self.doors.items():
            self.left[pair] = parts.get("cuts", 5)
            door.listen(64)
            loop.read(door, lambda pair=pair: self.accept(*pair))

    def accept(self, sender, to):
        caller, _ = self.doors[sender, to].accept()
        try:
            called = socket.create_connection(self.addresses[to], 1)
        except OSError:
            caller.close()
            return
        self.counts["made"] += 1
        cut = self.random.randint(*CUT) if self.left[sender, to] else None
        Connection(self, (sender, to), (caller, called), cut)


class Connection:
    """What one end says is held, and then said to the other."""

    def __init__(self, streams, pair, ends, cut):
        self.loop, self.counts, self.random = streams.loop, streams.counts, streams.random
        self.left, self.pair = streams.left, pair
        self.ends, self.cut, self.open = ends, cut, True
        # what is under way to each end, in order; no bytes say that the other end has ended
        self.held = [collections.deque(), collections.deque()]
        for number, end in enumerate(ends):
            end.setblocking(False)
            end.setsockopt(socket.IPPROTO_TCP, socket.TCP_NODELAY, 1)
            self.loop.read(end, lambda number=number: self.take(number))

    def take(self, number):
        if not self.open:
            return
        try:
            data = self.ends[number].recv(ROOM)
        except BlockingIOError:
            return
        except OSError:
            data = b""
        if not data:
            self.loop.forget(self.ends[number])
        self.held[1 - number].append(data)
        self.loop.after(DELAY, lambda: self.give(1 - number))
        if self.cut is not None:
            self.cut -= len(data)
            if self.cut <= 0:
                self.break_off()

    def give(self, number):
        """The oldest bytes under way to this end arrive. One that takes no more is closed."""
        if not self.open:
            return
        data = self.held[number].popleft()
        try:
            if data and self.ends[number].send(data) == len(data):
                return
        except OSError:
            pass
        self.close()

    def break_off(self):
        """Half of the oldest bytes still arrive: a frame may end in its middle."""
        self.left[self.pair] -= 1
        self.counts["cut"] += 1
        for number, held in enumerate(self.held):
            lost = sum(map(len, held))
            if held and held[0]:
                try:
                    lost -= self.ends[number].send(held[0][: len(held[0]) // 2])
                except OSError:
                    pass
            self.counts["lost"] += lost
        if self.random.random() < 0.5:
            for end in self.ends:
                end.setsockopt(socket.SOL_SOCKET, socket.SO_LINGER, struct.pack("ii", 1, 0))
        self.close()

    def close(self):
        self.open = False
        for end in self.ends:
            self.loop.forget(end)
            end.close()


def main():
    kind, members, seconds, counts_to = sys.argv[1], int(sys.argv[2]), float(sys.argv[3]), sys.argv[4]
    parts = {name: int(value) for name, value in (word.split("=") for word in sys.argv[5:])}
    counts = collections.Counter()
    loop = Loop(seconds)
    line = {"udp": Datagrams, "tcp": Streams}[kind]
    own = [bound(line.kind) for _ in range(members)]
    addresses = [each.getsockname() for each in own]
    doors = line(loop, addresses, parts, counts).doors
    for each in own:
        each.close()
    signal.signal(signal.SIGTERM, lambda *_: loop.stop())
    for me in range(members):
        peers = [addresses[me] if me == to else doors[me, to].getsockname() for to in range(members)]
        print(*(f"--peer {host}:{port}" for host, port in peers), flush=True)
    loop.run()
    with open(counts_to, "w", encoding="ascii") as file:
        for name, count in sorted(counts.items()):
            print(f"{name} {count}", file=file)


main()
