#!/usr/bin/env python3
"""A proxy that knows packets: stands between two programs and breaks the lines between them, by a seed.

    proxy.py --seed N [--unwatched yes] --line NAME:PORT:TARGET ..

listens on each PORT of 127.0.0.1 and takes what comes there on to TARGET. It prints a line when it listens, and then
reads commands, a line each; LINE is a name or `all`:

    faults LINE LOSE REPEAT LATE CUT   chances (0 to 1) for each packet of a message that is sent down, and after how
                                       many bytes of either direction a line is cut, on the average (0: never)
    calm LINE                          no more faults; what is held back goes out
    cut LINE                           closes what is open
    stall LINE SECONDS                 nothing passes for so long, and nothing is closed
    counts                             prints `counts` and what was done so far

Logins and their answers are never lost, repeated or late. Besides, it watches what a serving end sends down, before any
fault of its own, and prints `wrong LINE WORDS` where a rule of the line is broken: no message of a series before its
login was answered on this line, numbers in order from the one that was asked for, places in order, and the packets of a
message in a run; not so with --unwatched. It ends with standard input.
"""
import os
import random
import selectors
import signal
import socket
import sys
import time

import packets

MOST_QUEUED = 1 << 18  # bytes that wait for a socket before the other one is no longer read
LATE_SECONDS = 0.05  # a packet that is held back goes out then at last


class Watch:
    """What is known of a line: which logins were asked for, which answered, and what has to come next."""

    def __init__(self):
        self.asked = []  # logins that went up and aren't answered: series, number wanted, trade date
        self.next = {}  # of each series answered: the number that comes next
        self.chain = None  # the message under way: series, number, packets so far, TID

    def up(self, packet):
        if packet.is_login():
            start = packet.start()
            if start:
                self.asked.append((start[0], start[1], packet.date))

    def down(self, packet):
        """None, or what is wrong with the packet."""
        if self.chain and (packet.kind != "message" or (packet.series, packet.number) != self.chain[:2]):
            return f"a {packet} within the packets of series {self.chain[0]} number {self.chain[1]}"
        if packet.kind != "message":
            return None
        if packet.is_login():
            if not self.asked:
                return "an answer to a login that wasn't asked for"
            series, wanted, date = self.asked.pop(0)
            again = date is not None and packet.date is not None and date < packet.date
            self.next[series] = 1 if again else wanted
            return None
        if packet.series not in self.next:
            return f"a {packet} before a login of the series was answered on this line"
        if packet.number != self.next[packet.series]:
            return f"a {packet} where number {self.next[packet.series]} comes next"
        so_far = self.chain[2] if self.chain else 0
        if packet.place != so_far:
            return f"a {packet} where place {so_far} comes next"
        if packet.chain not in ("CL" if self.chain else "SF"):
            return f"a {packet} with {so_far} packets before it"
        if self.chain and packet.tid != self.chain[3]:
            return f"a {packet} with another TID than the packet before it"
        if packet.chain in "SL":
            self.chain = None
            self.next[packet.series] += 1
        else:
            self.chain = (packet.series, packet.number, so_far + 1, packet.tid)
        return None


class Faults:
    def __init__(self, lose=0.0, repeat=0.0, late=0.0, cut=0.0):
        self.lose, self.repeat, self.late, self.cut = lose, repeat, late, cut


class Pair:
    """One connection and its continuation: `low` is the end that logs in, `high` the one that serves."""

    def __init__(self, line, low, high, chance):
        self.line, self.low, self.high, self.chance = line, low, high, chance
        self.out = {low: bytearray(), high: bytearray()}
        self.passed = {low: 0, high: 0}  # bytes that were queued for it
        self.cut_at = {low: None, high: None}
        self.half = {low: bytearray(), high: bytearray()}  # bytes of a packet from there that isn't whole
        self.watch = Watch()
        self.held = []  # packets held back: how many others go first, until when, bytes
        self.ending = False  # to be closed when what is queued is out
        self.open = True
        self.draw_cuts()

    def draw_cuts(self):
        mean = self.line.faults.cut
        for end in (self.low, self.high):
            self.cut_at[end] = None
        if mean > 0:
            self.cut_at[self.low] = self.passed[self.low] + int(self.chance.expovariate(1 / mean))
            if self.chance.random() < 0.15:  # within the logins
                self.cut_at[self.high] = self.passed[self.high] + self.chance.randint(0, 400)

    def queue(self, end, data):
        """Queues bytes for an end; where the line is to be cut within them, only those before that."""
        if self.ending:
            return
        cut = self.cut_at[end]
        if cut is not None and self.passed[end] + len(data) > cut:
            data = data[: max(0, cut - self.passed[end])]
            self.ending = True
            self.line.count("cut")
        self.passed[end] += len(data)
        self.out[end] += data

    def from_low(self, data):
        self.half[self.low] += data
        for packet in packets.split(self.half[self.low]):
            self.watch.up(packet)
        self.queue(self.high, data)

    def from_high(self, data):
        self.half[self.high] += data
        for packet in packets.split(self.half[self.high]):
            wrong = self.watch.down(packet)
            if wrong and not self.line.proxy.unwatched:
                self.line.wrong(wrong)
                self.ending = True
            self.send_down(packet)

    def send_down(self, packet):
        faults, chance = self.line.faults, self.chance
        if packet.kind == "message" and not packet.is_login():
            at = chance.random()
            if at < faults.lose:
                self.line.count("lost")
                return
            at -= faults.lose
            if at < faults.late:
                self.line.count("late")
                self.held.append([chance.randint(1, 4), time.monotonic() + LATE_SECONDS, packet.bytes])
                return
            at -= faults.late
            if at < faults.repeat:
                self.line.count("repeated")
                self.queue(self.low, packet.bytes)
        self.queue(self.low, packet.bytes)
        for one in self.held:
            one[0] -= 1
        self.release(lambda one: one[0] <= 0)

    def release(self, due):
        for one in [one for one in self.held if due(one)]:
            self.held.remove(one)
            self.queue(self.low, one[2])


class Line:
    def __init__(self, proxy, name, port, target):
        self.proxy, self.name, self.port, self.target = proxy, name, port, target
        self.faults = Faults()
        self.pairs = []
        self.connections = 0
        self.stalled_until = 0.0
        self.listener = socket.socket()
        self.listener.setsockopt(socket.SOL_SOCKET, socket.SO_REUSEADDR, 1)
        self.listener.bind(("127.0.0.1", port))
        self.listener.listen(64)
        self.listener.setblocking(False)

    def count(self, what):
        self.proxy.counts[what] = self.proxy.counts.get(what, 0) + 1

    def wrong(self, words):
        print(f"wrong {self.name} {words}", flush=True)

    def accept(self):
        try:
            low, _ = self.listener.accept()
        except OSError:
            return
        self.connections += 1
        self.count("lines")
        try:
            high = socket.create_connection(("127.0.0.1", self.target), timeout=5)
        except OSError:
            low.close()
            return
        for end in (low, high):
            end.setblocking(False)
            end.setsockopt(socket.IPPROTO_TCP, socket.TCP_NODELAY, 1)
        chance = random.Random(f"{self.proxy.seed} {self.name} {self.connections}")
        pair = Pair(self, low, high, chance)
        self.pairs.append(pair)
        for end in (low, high):
            self.proxy.selector.register(end, selectors.EVENT_READ, pair)


class Proxy:
    def __init__(self, seed, lines, unwatched):
        self.seed, self.unwatched = seed, unwatched
        self.counts = {}
        self.selector = selectors.DefaultSelector()
        self.lines = {name: Line(self, name, port, target) for name, port, target in lines}
        for line in self.lines.values():
            self.selector.register(line.listener, selectors.EVENT_READ, line)
        os.set_blocking(0, False)
        self.selector.register(0, selectors.EVENT_READ, "commands")
        self.typed = b""

    def close(self, pair):
        if not pair.open:
            return
        pair.open = False
        for end in (pair.low, pair.high):
            try:
                self.selector.unregister(end)
            except KeyError:
                pass  # it was waited for nothing
            end.close()
        pair.line.pairs.remove(pair)

    def chosen(self, name):
        return list(self.lines.values()) if name == "all" else [self.lines[name]]

    def command(self, words):
        if not words:
            return
        if words[0] == "counts":
            print("counts " + " ".join(f"{what}={n}" for what, n in sorted(self.counts.items())), flush=True)
            return
        for line in self.chosen(words[1]):
            if words[0] == "faults":
                line.faults = Faults(*(float(word) for word in words[2:6]))
                for pair in line.pairs:
                    pair.draw_cuts()
            elif words[0] == "calm":
                line.faults = Faults()
                line.stalled_until = 0.0
                for pair in line.pairs:
                    pair.draw_cuts()
                    pair.release(lambda one: True)
            elif words[0] == "cut":
                for pair in list(line.pairs):
                    line.count("cut")
                    self.close(pair)
            elif words[0] == "stall":
                line.stalled_until = time.monotonic() + float(words[2])
                line.count("stalled")
            else:
                print(f"unknown command {words}", flush=True)

    def commands(self):
        """False at the end of the input."""
        try:
            data = os.read(0, 65536)
        except BlockingIOError:
            return True
        if not data:
            return False
        self.typed += data
        while b"\n" in self.typed:
            line, self.typed = self.typed.split(b"\n", 1)
            self.command(line.decode().split())
        return True

    def ready(self, pair, end, events):
        other = pair.high if end is pair.low else pair.low
        if events & selectors.EVENT_WRITE and pair.out[end]:
            try:
                sent = end.send(memoryview(pair.out[end])[:65536])
                del pair.out[end][:sent]
            except BlockingIOError:
                pass
            except OSError:
                self.close(pair)
                return
        if events & selectors.EVENT_READ and not pair.ending and len(pair.out[other]) < MOST_QUEUED:
            try:
                data = end.recv(65536)
            except BlockingIOError:
                return
            except OSError:
                data = b""
            if not data:  # what the other end still has to get goes out before
                pair.release(lambda one: True)
                pair.ending = True
            elif end is pair.low:
                pair.from_low(data)
            else:
                pair.from_high(data)

    def interest(self, pair):
        """What the two sockets are waited for; closes the pair where all is done."""
        if pair.ending and not pair.out[pair.low] and not pair.out[pair.high]:
            self.close(pair)
            return
        stalled = pair.line.stalled_until > time.monotonic()
        for end, other in ((pair.low, pair.high), (pair.high, pair.low)):
            events = 0
            if not stalled:
                if pair.out[end]:
                    events |= selectors.EVENT_WRITE
                if not pair.ending and len(pair.out[other]) < MOST_QUEUED:
                    events |= selectors.EVENT_READ
            try:
                key = self.selector.get_key(end)
            except KeyError:
                key = None
            if events and key is None:
                self.selector.register(end, events, pair)
            elif events and key.events != events:
                self.selector.modify(end, events, pair)
            elif not events and key is not None:
                self.selector.unregister(end)

    def run(self):
        print("listening", flush=True)
        while True:
            now = time.monotonic()
            waits = []
            for line in self.lines.values():
                for pair in list(line.pairs):
                    if pair.held:
                        pair.release(lambda one: one[1] <= now)
                        waits += [one[1] - now for one in pair.held]
                    self.interest(pair)
                    if line.stalled_until > now:
                        waits.append(line.stalled_until - now)
            for key, events in self.selector.select(max(0.001, min(waits)) if waits else None):
                if key.data == "commands":
                    if not self.commands():
                        return
                elif isinstance(key.data, Line):
                    key.data.accept()
                elif key.data.open:
                    self.ready(key.data, key.fileobj, events)


def main():
    seed, lines, unwatched = "0", [], False
    words = sys.argv[1:]
    while words:
        if words[0] == "--seed" and len(words) > 1:
            seed = words[1]
        elif words[:2] == ["--unwatched", "yes"]:
            unwatched = True
        elif words[0] == "--line" and words[1:] and words[1].count(":") == 2:
            name, port, target = words[1].split(":")
            lines.append((name, int(port), int(target)))
        else:
            print(__doc__, file=sys.stderr)
            return 2
        words = words[2:]
    signal.signal(signal.SIGTERM, lambda *_: os._exit(0))
    signal.signal(signal.SIGINT, signal.SIG_IGN)
    Proxy(seed, lines, unwatched).run()
    return 0


if __name__ == "__main__":
    sys.exit(main())
