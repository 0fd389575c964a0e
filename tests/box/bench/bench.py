#!/usr/bin/env python3
"""How fast the box is on real lines, beside a plain relay of the same bytes, in one run on loopback.

    tests/box/bench/bench.py [--programs DIR] [--messages N] [--rate R] [--rounds N] [--deep N]

Messages of 200 bytes go to one seat and to sixteen (plain sockets that log in and read, all in one program):

    relay           a program that copies bytes from one line to the others (relay.c)
    box             through one ftdbox; what plays the exchange sends the same packets as to the relay
    exchange, box   published by ftdexchange, through one ftdbox
    .., printed     and to an ftdseat, up to the line that it prints

For each: messages a second where they are sent as fast as they are taken, up to a log of N messages (8000) and of a
quarter of that: a Send looks for its message from the log's start, so that both ends get slower as the day goes on. And
at R messages a second (500), for two seconds from an empty log on, the 50th and 99th percentile of the time from
publishing to receiving, in microseconds. The rounds (3) go through all of them in turn, and the middle one counts.
Ratios are to the relay's. The machine has to be idle, or the figures say little.

    --deep N        instead: the same percentiles, at 20 messages a second to one seat, behind N messages in the log
"""
import argparse
import os
import shutil
import socket
import subprocess
import sys
import tempfile
import time

HERE = os.path.dirname(os.path.abspath(__file__))
sys.path.insert(0, os.path.dirname(HERE))
import packets
from world import ROOT, SEATS, Failure, Trouble, free_ports

DATE = 20041231
CONTENT = 200


class Bench:
    def __init__(self, arguments, folder):
        self.arguments, self.folder = arguments, folder
        self.started = []
        self.serial = 0
        for name in ("meter", "relay"):
            words = [os.environ.get("CC", "cc"), "-std=c99", "-O2", os.path.join(HERE, name + ".c")]
            done = subprocess.run(words + ["-o", self.path(name)], capture_output=True, text=True)
            if done.returncode != 0:
                raise Trouble(done.stderr)

    def path(self, name):
        return os.path.join(self.folder, name)

    def start(self, words, **more):
        with open(self.path(f"errors.{self.serial}"), "ab") as errors:
            more = {"stdin": subprocess.DEVNULL, "stdout": subprocess.DEVNULL, "stderr": errors, **more}
            self.started.append(subprocess.Popen([str(word) for word in words], **more))

    def stop(self):
        for one in self.started:
            one.terminate()
        for one in self.started:
            one.wait()
        self.started = []

    def tool(self, name, *words):
        return [os.path.join(self.arguments.programs, name), *words, "--silence", 0, "--quiet"]

    def fifo(self, name):
        path = self.path(f"{name}.{self.serial}")
        os.mkfifo(path)
        return path, os.open(path, os.O_RDWR)

    def wait_for_box(self, port, before):
        """Until the box has so many messages of series 2: it refuses a login for the next one before that."""
        login = packets.login_packet(2, before + 1)
        while before:
            time.sleep(0.1)
            try:
                with socket.create_connection(("127.0.0.1", port), timeout=60) as line:
                    line.sendall(login)
                    if line.recv(4):
                        return
            except OSError:
                pass

    def measure(self, kind, seats, messages, rate, before=0):
        """Messages a second, and the two percentiles; before: so many messages are in the log already."""
        self.serial += 1
        base = free_ports(2 + SEATS)
        above, below = base, base + 2
        packet = packets.message_packet(1, DATE, 1, 0x7777, packets.field(0x7001, bytes(CONTENT - 6)))
        login = packets.login_packet(1, 1).hex()
        sinks = [f"connect:{below + i}:{login}" for i in range(seats)]
        again = ("--series", "1", "--pause", "20:50")
        both = ("--series", "1,2" if before else "1", "--pause", "20:50")
        box = self.tool("ftdbox", "--above", f"127.0.0.1:{above}", "--seats", below, *both)
        opened = []
        try:
            if kind == "relay":
                source = f"listen:{above}"
                sinks = [f"connect:{below + i}" for i in range(seats)]
                self.start([self.path("relay"), above, below, seats])
            elif kind == "box":
                source = f"listen:{above}:{packets.answer_packet(DATE).hex()}"
                self.start(box)
            else:
                path, commands = self.fifo("commands")
                opened.append(commands)
                source = f"publish:{path}:1"
                self.start(self.tool("ftdexchange", "--port", above), stdin=commands)
                os.write(commands, f"open {DATE} 1 2\n".encode())
                fill = f"publish 2 7777 {packets.field(0x7001, bytes(CONTENT - 6)).hex()}\n".encode()
                for _ in range(before):
                    os.write(commands, fill)
                self.start(box)
                self.wait_for_box(below + SEATS - 1, before)
            if kind == "printed":
                sinks = []
                for i in range(seats):
                    path, lines = self.fifo(f"lines{i}")
                    opened.append(lines)
                    self.start(self.tool("ftdseat", "--box", f"127.0.0.1:{below + i}", *again), stdout=lines)
                    sinks.append(f"lines:{path}")
                time.sleep(1)  # until they have logged in
            words = [self.path("meter"), str(messages), str(rate), packet.hex(), source] + sinks
            done = subprocess.run(words, capture_output=True, text=True, timeout=600)
            if done.returncode != 0:
                raise Failure(f"{kind} to {seats}: {done.stderr.strip()}")
            return tuple(float(word) for word in done.stdout.split())
        finally:
            self.stop()
            for one in opened:
                os.close(one)

    def deep(self, before):
        """How long a message takes that stands behind so many in the log."""
        _, middle, high = self.measure("exchange, box", 1, 60, 20, before)
        print(f"behind {before} messages in the log: 50th percentile {middle:.0f} us, 99th {high:.0f} us")

    def run(self):
        arguments = self.arguments
        cases = [(kind, seats) for seats in (1, SEATS) for kind in ("relay", "box", "exchange, box")] + [("printed", 1)]
        found = {case: [] for case in cases}
        for _ in range(arguments.rounds):
            for kind, seats in cases:
                times = 20 if kind == "relay" else 1  # it has no log, and is through in no time
                many = self.measure(kind, seats, times * arguments.messages, 0)[0]
                few = self.measure(kind, seats, times * arguments.messages // 4, 0)[0]
                _, middle, high = self.measure(kind, seats, arguments.rate * 2, arguments.rate)
                found[kind, seats].append((few, many, middle, high))
        load = " ".join(f"{one:.1f}" for one in os.getloadavg())
        print(f"messages of {CONTENT} bytes, rounds: {arguments.rounds}, load: {load}, cores: {os.cpu_count()}")
        few, many = f"log {arguments.messages // 4}", f"log {arguments.messages}"
        print(f"{'':34}{'messages a second':>22}{'latency, us':>18}{'to the relay':>28}")
        print(f"{'':34}{few:>11}{many:>11}{'50th':>9}{'99th':>9}{'rate':>7}{'rate':>7}{'50th':>7}{'99th':>7}")
        for kind, seats in cases:
            row = [sorted(column)[len(column) // 2] for column in zip(*found[kind, seats])]
            plain = [sorted(column)[len(column) // 2] for column in zip(*found["relay", seats])]
            name = {"printed": "exchange, box, printed"}.get(kind, kind) + f" to {seats} seat{'s' if seats > 1 else ''}"
            ratios = [one / other for one, other in zip(row, plain)]
            print(
                f"{name:34}{row[0]:11.0f}{row[1]:11.0f}{row[2]:9.0f}{row[3]:9.0f}"
                f"{ratios[0]:7.3f}{ratios[1]:7.3f}{ratios[2]:7.1f}{ratios[3]:7.1f}",
                flush=True,
            )


def main():
    parser = argparse.ArgumentParser(usage=__doc__, add_help=False)
    parser.add_argument("--help", "-h", action="store_true")
    parser.add_argument("--programs", default=os.path.join(ROOT, "target/tools"))
    parser.add_argument("--messages", type=int, default=8000)
    parser.add_argument("--rate", type=int, default=500)
    parser.add_argument("--rounds", type=int, default=3)
    parser.add_argument("--deep", type=int)
    arguments = parser.parse_args()
    if arguments.help:
        print(__doc__)
        return 0
    folder = tempfile.mkdtemp(prefix="box-bench-")
    try:
        bench = Bench(arguments, folder)
        if arguments.deep is None:
            bench.run()
        else:
            bench.deep(arguments.deep)
    except Failure as failure:
        print(f"bench: {failure}; output in {folder}")
        return 1
    except Trouble as trouble:
        print(f"bench: {trouble}", file=sys.stderr)
        return 2
    shutil.rmtree(folder)
    return 0


if __name__ == "__main__":
    sys.exit(main())
