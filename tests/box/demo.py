#!/usr/bin/env python3
"""The box on real lines, told as it happens: an exchange, two boxes in a row and three seats.

    tests/box/demo.py [--programs DIR] [--seed N]      (make demo)

A few hundred messages of a private and a broadcast series go down while lines are cut and a box and a seat are killed.
What each seat printed is compared with what was published; the last line is `all seats agree`, or says what differs.
Exit status: 0 they agree, 1 something differs, 2 wrong usage, or it can't run.
"""
import argparse
import os
import random
import shutil
import sys
import tempfile
import time

import packets
from world import ROOT, SEATS, Exchange, Failure, Program, Proxy, Seat, Trouble, World, free_ports

LOG = 32 << 20


class Demo:
    def __init__(self, seed, programs, folder):
        self.started = time.monotonic()
        self.chance = random.Random(f"{seed} demo")
        self.world = world = World(folder, programs, seed)
        base = free_ports(5 + 2 * SEATS)
        exchange, box1, box2 = base, base + 1, base + 1 + SEATS
        front = base + 1 + 2 * SEATS
        self.above = Proxy(world, "line above", [("above", front, exchange)])
        self.between = Proxy(world, "line between", [("between", front + 1, box1)])
        self.below = Proxy(world, "lines below", [(f"line{i}", front + 1 + i, box2 + i) for i in (1, 2, 3)])
        self.proxies = (self.above, self.between, self.below)
        common = ["--beat", "0.5", "--silence", "5"]
        again = ["--pause", "50:400"]
        self.exchange = world.exchange = Exchange(world, exchange, ["--log", str(LOG)] + common)
        self.boxes = []
        for name, up, seats in (("box 1", front, box1), ("box 2", front + 1, box2)):
            words = [world.tool("ftdbox"), "--above", f"127.0.0.1:{up}", "--seats", str(seats), "--series", "1,2"]
            self.boxes.append(Program(world, name, words + ["--log", str(LOG), "--bind", "127.0.0.1"] + common + again))
        for i in (1, 2, 3):
            Seat(world, f"seat {i}", front + 1 + i, [1, 2], options=common + again)

    def say(self, words):
        print(f"{time.monotonic() - self.started:6.1f} s  {words}", flush=True)

    def publish(self, count, long_share=0.06):
        """Publishes, and says what."""
        rows = {1: 0, 2: 0}
        most = many = size = 0
        for _ in range(count):
            series = self.chance.choice((1, 2))
            tid, content = packets.make_message(self.chance, series, long_share)
            self.exchange.publish(series, tid, content)
            rows[series] += 1
            many += len(content) > 4080
            most = max(most, len(content))
            size += len(content)
        self.say(
            f"the exchange publishes {rows[1]} messages of the private series and {rows[2]} of the broadcast one: "
            f"{size} bytes, {many} of several packets, the longest of {most} bytes"
        )

    def wait(self, words):
        self.world.wait_whole()
        self.exchange.settle()
        self.say(words)

    def counts(self):
        """How many of the day's messages each seat has by now."""
        self.world.look()
        date = self.world.ledger.date
        published = sum(self.world.ledger.published(date, series) for series in (1, 2))
        parts = []
        for seat in self.world.seats:
            has = sum(last for own, last in seat.account.place.values() if own == date)
            parts.append(f"{seat.name} {has}")
        return f"of the day's {published}: " + ", ".join(parts)

    def run(self):
        world, (box1, box2) = self.world, self.boxes
        self.exchange.start()
        for one in self.proxies:
            one.start()
        for one in self.boxes + world.seats:
            one.start()
        self.say("started: exchange - box 1 - box 2 - three seats, a proxy on every line")

        self.exchange.open(20041231, ["1", "2"])
        self.say("the exchange opens the day 20041231 with series 1 (private) and 2 (broadcast)")
        self.publish(120)
        self.wait("every seat has all of them")

        self.between.command("faults", "between", 0, 0, 0, 20000)
        self.above.command("faults", "above", 0, 0, 0, 40000)
        self.say("the lines above and between the boxes are cut again and again from now on, within packets and logins")
        self.publish(100)
        self.world.pause(1.0)
        self.say(f"the lines come again, and go on where they were: {self.counts()}")
        self.wait("every seat has all of them, over all cuts")

        self.publish(100)
        box1.kill()
        self.say("box 1 is killed (kill -9), and all that it held is gone")
        self.publish(40)
        self.world.pause(0.5)
        self.say(f"without box 1: {self.counts()}")
        box1.start()
        self.say("box 1 is started again, with nothing; box 2 is ahead of it and comes again until it has caught up")
        self.world.pause(0.3)
        for one in self.proxies:
            one.command("calm", "all")
        self.wait("box 1 has caught up, and every seat has all of the day")

        self.below.command("faults", "all", 0.01, 0.01, 0.01, 0)
        self.say("the seats' lines lose, repeat and hold back single packets from now on")
        self.exchange.open(20050104, ["1", "2"])
        self.say("the exchange opens the next day, 20050104: all log in anew")
        self.publish(120)
        self.world.pause(0.3)
        seat = world.seats[1]
        seat.kill()
        seat.start()
        self.say("seat 2 is killed, and started again: it goes on behind the last number in its state file")
        self.publish(60)
        self.world.pause(0.7)
        self.below.command("calm", "all")
        self.say("the lines are quiet again; one message more of each series shows what is missing")
        for series in (1, 2):
            self.exchange.publish(series, 0x7777, packets.field(0x7001, b"the last one"))
        self.wait("every seat has all of the day")
        for one in self.proxies:
            one.tell()
        counts = sum((one.counts for one in self.proxies), start=type(self.above.counts)())
        self.say(
            f"in all: {counts['cut']} lines cut, {counts['lost']} packets lost, {counts['repeated']} repeated, "
            f"{counts['late']} late, {counts['lines']} connections"
        )
        for one in [*world.seats, box2, box1, *self.proxies, self.exchange]:
            one.stop()
        self.say("all programs are told to end, and end with status 0")
        for date, day in sorted(world.ledger.days.items()):
            published = ", ".join(f"{len(day[series])} of series {series}" for series in (1, 2))
            self.say(f"day {date}: published {published}; each seat printed the same, in order, each once")
        if world.seats[1].account.repeats:
            self.say("(seat 2 printed its very last line before the kill once more, as its usage says)")


def main():
    parser = argparse.ArgumentParser(usage=__doc__, add_help=False)
    parser.add_argument("--help", "-h", action="store_true")
    parser.add_argument("--programs", default=os.path.join(ROOT, "target/tools"))
    parser.add_argument("--seed", type=int, default=1)
    arguments = parser.parse_args()
    if arguments.help:
        print(__doc__)
        return 0
    programs = os.path.abspath(arguments.programs)
    for name in ("ftdbox", "ftdexchange", "ftdseat"):
        if not os.access(os.path.join(programs, name), os.X_OK):
            print(f"demo: there is no program {name} in {programs}: `make tools` builds them", file=sys.stderr)
            return 2
    folder = tempfile.mkdtemp(prefix="box-demo-")
    demo = None
    try:
        demo = Demo(arguments.seed, programs, folder)
        demo.run()
    except Failure as failure:
        print(f"seed {arguments.seed}: {failure}\nthe programs' output is in {folder}", flush=True)
        return 1
    except Trouble as trouble:
        print(f"demo: {trouble}", file=sys.stderr)
        return 2
    finally:
        if demo:
            demo.world.abandon()
    shutil.rmtree(folder)
    print("all seats agree")
    return 0


if __name__ == "__main__":
    sys.exit(main())
