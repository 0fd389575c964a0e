#!/usr/bin/env python3
"""The test that breaks everything: an exchange, two boxes in a row and eighteen seats, with a proxy on every line.

    tests/box/run.py [--quick | --soak MINUTES | --planted] [--sanitize] [--seed N] [--programs DIR] [--lib FILE]

    exchange - proxy - box 1 - proxy - box 2 - proxy - 16 seats
                             - proxy - 2 seats, a slow seat, noise

In one run: three days, messages of both series with up to 32768 bytes; the proxies lose, repeat and hold back single
packets, cut lines behind any byte and stall them; boxes, seats and proxies are killed (kill -9) and started again; one
seat reads a byte at a time, and something connects that sends noise. What a seat printed of a series and a day has to
be the first messages that were published then, in order, each once; a seat that was killed may print its very last line
once more. When the faults have stopped, every seat has to get the whole of the day. Then the programs must have no
descriptor and no memory more than before, and end with status 0 after SIGTERM.

    (nothing)        three runs, about a minute
    --quick          one small run, about 15 seconds
    --soak MINUTES   runs with rising seeds for so long
    --planted        compiles the programs with planted faults, each of which a run has to find
    --sanitize       compiles the programs with -fsanitize=address,undefined, and runs those
    --seed N         the first seed (1)
    --programs DIR   where ftdbox, ftdexchange and ftdseat are (target/tools; `make tools` builds them)
    --lib FILE       the library for --planted and --sanitize (target/lib/libftd.a)
    --keep           keep the programs' output, also where nothing is wrong

Exit status: 0 all is right, 1 something differs (the message has the seed), 2 wrong usage, or it can't run.
"""
import argparse
import os
import random
import shutil
import subprocess
import sys
import tempfile
import time

import commands
import packets
from world import ROOT, SEATS, Exchange, Failure, Helper, Noise, Program, Proxy, RawSeat, Seat, SlowSeat, Trouble, World
from world import free_ports

PROGRAMS = ("ftdbox", "ftdexchange", "ftdseat")
BEAT, SILENCE = 0.4, 2.0
LOG = 8 << 20
RESERVE = 1 << 20
GROWTH = 192 << 10  # bytes by which the memory of a program may differ: all that it needs is taken at its start
DATES = (20041231, 20050104, 20050105)
FAULTS = {"above": (0.01, 0.01, 0.01, 150000), "middle": (0.01, 0.01, 0.01, 150000), "seat": (0.01, 0.01, 0.01, 200000)}


class Size:
    """How much is done in a run."""

    def __init__(self, steps, batch, long_share, probes):
        self.steps, self.batch, self.long_share, self.probes = steps, batch, long_share, probes


SMALL = Size(steps=14, batch=5, long_share=0.10, probes=300)
FULL = Size(steps=30, batch=8, long_share=0.12, probes=600)


class SilentLine(Helper):
    """A seat that logs in and then sends nothing: it is sent heartbeats, and its line is closed."""

    def __init__(self, world, port):
        super().__init__("silent line")
        self.raw = RawSeat(world, "silent line", port, [1, 2])

    def work(self):
        self.raw.connect(ahead=True)
        self.raw.socket.settimeout(0.1)
        started, beats, beaten = time.monotonic(), 0, self.raw.watch.down

        def down(packet):
            nonlocal beats
            beats += packet.kind == "link"
            return beaten(packet)

        self.raw.watch.down = down
        while not self.ending.is_set():
            try:
                if not self.raw.read():
                    break
            except TimeoutError:
                pass
            if time.monotonic() - started > SILENCE + 15:
                raise Failure(f"a line on which nothing came for {SILENCE + 15:.0f} seconds is still open")
        else:
            return
        took = time.monotonic() - started
        if took < SILENCE * 0.9:
            raise Failure(f"a silent line was closed after {took:.1f} seconds, {SILENCE} were set")
        if beats == 0:
            raise Failure(f"no heartbeat came on an idle line in {took:.1f} seconds, every {BEAT} were set")


class Run:
    """One run by a seed."""

    def __init__(self, seed, size, programs, folder, measured=True, watch=True):
        self.chance = random.Random(f"{seed} run")
        self.size = size
        self.measured = measured  # memory is looked at
        self.world = world = World(folder, programs, seed, watch)
        self.done = {}  # how often each event took place
        base = free_ports(6 + 3 * SEATS)
        self.ports = {"exchange": base, "box 1": base + 1, "box 2": base + 1 + SEATS}
        next_port = base + 1 + 2 * SEATS
        lines = [("above", next_port, self.ports["exchange"])]
        self.above = Proxy(world, "proxy-above", lines)
        middle = [("middle", next_port + 1, self.ports["box 1"])]
        middle += [(f"near{i}", next_port + 1 + i, self.ports["box 1"] + i) for i in (1, 2)]
        self.middle = Proxy(world, "proxy-middle", middle)
        below = [(f"seat{i}", next_port + 4 + i, self.ports["box 2"] + i) for i in range(SEATS)]
        self.below = Proxy(world, "proxy-below", below)
        self.proxies = [self.above, self.middle, self.below]
        common = ["--beat", str(BEAT), "--silence", str(SILENCE)]
        again = ["--pause", "20:200"]
        world.exchange = self.exchange = Exchange(world, self.ports["exchange"], ["--log", str(LOG)] + common)
        self.boxes = []
        for name, above in (("box 1", next_port), ("box 2", next_port + 1)):
            words = [world.tool("ftdbox"), "--above", f"127.0.0.1:{above}", "--seats", str(self.ports[name])]
            words += ["--series", "1,2", "--reserve", f"1={RESERVE}", "--log", str(LOG), "--bind", "127.0.0.1"]
            self.boxes.append(Program(world, name.replace(" ", "-"), words + common + again))
        asks = {0: [2, 1], 1: [1], 2: [2]}
        self.far = [
            Seat(world, f"seat{i}", port, asks.get(i, [1, 2]), state=i != 5, options=common + again)
            for i, (_, port, _) in enumerate(below)
        ]
        self.near = [
            Seat(world, name, port, [1, 2], state=name != "near2", options=common + again)
            for name, port, _ in middle[1:]
        ]

    # ---- What is done ----

    def publish(self, count):
        for _ in range(count):
            series = self.chance.choice((1, 2))
            tid, content = packets.make_message(self.chance, series, self.size.long_share)
            if self.world.ledger.bytes + len(content) + 16 > LOG - RESERVE:
                content = b""
                tid = 0x7777
            self.exchange.publish(series, tid, content)

    def open(self, date):
        self.exchange.open(date, [f"1:{RESERVE}", "2"])

    def faults(self):
        for one in self.proxies:
            self.set_faults(one)

    def set_faults(self, one):
        for name in one.lines:
            lose, repeat, late, cut = FAULTS.get(name, FAULTS["seat"])
            one.command("faults", name, lose, repeat, late, cut)

    def kill_box(self, box):
        box.kill()
        self.world.pause(self.chance.choice((0, 0, 0.1, 0.4)))
        box.start()

    def kill_seat(self):
        seat = self.chance.choice(self.far + self.near)
        seat.kill()
        seat.start()
        if self.chance.random() < 0.3:
            self.world.pause(self.chance.random() * 0.05)
            seat.kill()
            seat.start()

    def stop_seat(self):
        seat = self.chance.choice(self.far + self.near)
        seat.stop()
        self.world.pause(self.chance.random() * 0.1)
        seat.start()

    def kill_proxy(self, one):
        one.tell()
        one.kill()
        self.world.pause(self.chance.random() * 0.2)
        one.start()
        self.set_faults(one)

    def cut_some(self):
        one = self.chance.choice(self.proxies)
        one.command("cut", self.chance.choice(one.lines + ["all"]))

    def stall(self):
        one = self.chance.choice(self.proxies)
        one.command("stall", self.chance.choice(one.lines), SILENCE + 0.6)

    def stop_box(self, box):
        box.stop()
        box.start()

    def events(self, count):
        """So many events in an order by the seed, every kind among them where there are enough."""
        kinds = {
            "box 1 killed": lambda: self.kill_box(self.boxes[0]),
            "box 2 killed": lambda: self.kill_box(self.boxes[1]),
            "seat killed": self.kill_seat,
            "seat stopped": self.stop_seat,
            "proxy above killed": lambda: self.kill_proxy(self.above),
            "proxy between killed": lambda: self.kill_proxy(self.middle),
            "proxy of the seats killed": lambda: self.kill_proxy(self.below),
            "lines cut": self.cut_some,
            "line stalled": self.stall,
            "box stopped": lambda: self.stop_box(self.chance.choice(self.boxes)),
        }
        names = []
        while len(names) < count:
            more = list(kinds)
            self.chance.shuffle(more)
            names += more
        return [(name, kinds[name]) for name in names[:count]]

    # ---- A run ----

    def start(self):
        self.exchange.start()
        for one in self.proxies:
            one.start()
        for one in self.boxes + self.far + self.near:
            one.start()

    def stormy_days(self):
        size, world = self.size, self.world
        self.open(DATES[0])
        self.publish(size.batch)
        self.start_slow_seat()
        world.wait_whole()
        self.first = {name: (one.life, *now) for name, (one, *now) in self.measured_programs().items()}
        self.start_noise()
        self.faults()
        events = self.events(2 * size.steps)
        for step, (name, event) in enumerate(events):
            if step == size.steps:
                self.open(DATES[1])
            self.publish(self.chance.randint(0, 2 * size.batch))
            world.pause(self.chance.choice((0.02, 0.1, 0.25)))
            event()
            self.done[name] = self.done.get(name, 0) + 1
        self.exchange.settle()

    def start_slow_seat(self):
        self.slow = SlowSeat(self.world, self.ports["box 1"] + 3, [1, 2], 0.004)
        self.world.helpers.append(self.slow)
        self.slow.start()

    def start_noise(self):
        """Mostly at ports of its own; now and then where a seat, or box 1, has its line, which it loses by that."""
        box = self.ports["box 1"]
        ports = [box + 4] * 6 + [box + 5] * 6 + [self.ports["box 2"] + 7, self.ports["exchange"]]
        self.noise = Noise(ports, self.world.seed, 0.05, DATES[0])
        self.world.helpers.append(self.noise)
        self.noise.start()

    def calm(self):
        for one in self.proxies:
            one.command("calm", "all")
        self.noise.stop()

    def wait_whole(self):
        """The faults have stopped. A lost message that was the last one is missed at the next, or at a new login."""
        self.world.pause(0.2)
        if self.world.seed % 4 == 3:
            for one in self.proxies:
                one.command("cut", "all")
        else:
            for series in (1, 2):
                self.exchange.publish(series, 0x7777, packets.field(0x7001, b"the last one"))
        self.world.wait_whole()
        self.exchange.settle()

    def measured_programs(self):
        """Of each program under test that runs: itself, its descriptors and its memory."""
        running = [one for one in self.world.programs if one.process and not isinstance(one, Proxy)]
        return {one.name: (one, one.descriptors(), one.memory()) for one in running}

    def measure(self):
        return {name: (descriptors, memory) for name, (_, descriptors, memory) in self.measured_programs().items()}

    def compare(self, before, now, what):
        """No descriptor more, and no memory beyond what a heap may keep."""
        for name, (descriptors, memory) in now.items():
            if name not in before:
                continue
            if descriptors > before[name][0]:
                raise Failure(f"{name}: {descriptors} descriptors, {what} {before[name][0]}")
            more = memory - before[name][1]
            if self.measured and more > GROWTH:
                raise Failure(f"{name}: {more >> 10} KiB of memory more than {what}")

    def probe(self, name, port, count):
        """So many lines, each logged in, answered and closed again."""
        raw = RawSeat(self.world, f"probe of {name}", port, [1, 2])
        for _ in range(count):
            try:
                raw.connect(ahead=True)
                if not raw.answered():
                    self.lost_probes += 1
            except OSError:
                self.lost_probes += 1
        raw.close()

    def probes(self, count):
        """Many lines on every program: on the exchange and the boxes by a probe, on the seats by cuts."""
        self.lost_probes = 0
        self.probe("box 1", self.ports["box 1"] + 6, count)
        self.probe("exchange", self.ports["exchange"], count // 4)
        for _ in range(max(3, count // 40)):
            self.below.command("cut", "all")
            self.world.pause(0.06)
        self.below.command("calm", "all")

    def calm_day(self):
        """A day on quiet lines, and whether anything grows."""
        world = self.world
        self.open(DATES[2])
        silent = SilentLine(world, self.ports["box 1"] + 8)
        self.publish(self.size.batch * 4)
        world.wait_whole()
        silent.start()
        world.helpers.append(silent)
        self.probes(max(10, self.size.probes // 4))
        self.settled(None)
        before = self.measure()
        self.probes(self.size.probes)
        self.publish(self.size.batch * 2)
        world.wait_whole()
        self.settled(before)
        now = self.measured_programs()
        self.compare(before, self.measure(), "before many lines")
        since = {name: first[1:] for name, first in self.first.items() if now[name][0].life == first[0]}
        self.settled(since)
        self.compare(since, self.measure(), "at the start")
        if self.lost_probes > self.size.probes // 4:
            raise Failure(f"{self.lost_probes} probes got no answer on quiet lines")
        silent.join(SILENCE + 20)
        silent.stop()

    def settled(self, before):
        """Waits until no program has a descriptor more than before."""

        def differs():
            self.world.look()
            if not before:
                return []
            now = self.measure()
            more = [name for name in before if now[name][0] > before[name][0]]
            return [f"{name}: {now[name][0]}, before {before[name][0]}" for name in more]

        until = time.monotonic() + 15
        time.sleep(0.5)
        while differs():
            if time.monotonic() > until:
                raise Failure("descriptors: " + "; ".join(differs()))
            time.sleep(0.1)

    def stop(self):
        world = self.world
        self.slow.stop()
        world.wait_whole()
        programs = [one for one in world.programs if one.process]
        for one in self.proxies:
            one.tell()
        self.chance.shuffle(programs)
        for one in programs:
            one.stop()

    def sanitizers(self):
        for name in sorted(os.listdir(self.world.folder)):
            if name.endswith(".err"):
                with open(os.path.join(self.world.folder, name), "rb") as file:
                    text = file.read().decode(errors="replace")
                for word in ("Sanitizer", "runtime error:"):
                    if word in text:
                        line = next(line for line in text.split("\n") if word in line)
                        raise Failure(f"{name}: {line}")

    def all(self):
        try:
            self.start()
            self.stormy_days()
            self.calm()
            self.wait_whole()
            self.calm_day()
            self.stop()
            self.sanitizers()
        finally:
            self.world.abandon()

    def story(self):
        ledger = self.world.ledger
        messages = sum(len(row) for day in ledger.days.values() for row in day.values())
        handed = sum(seat.account.count for seat in self.world.seats)
        counts = sum((one.counts for one in self.proxies), start=type(self.above.counts)())
        faults = ", ".join(f"{counts[what]} {what}" for what in ("lost", "repeated", "late", "cut", "stalled"))
        killed = sum(n for name, n in self.done.items() if "killed" in name)
        return (
            f"{len(ledger.days)} days, {messages} messages, {handed} handed on at {len(self.world.seats)} seats; "
            f"packets and lines: {faults}; {killed} kills, {self.noise.count} noisy lines, "
            f"{self.slow.bytes} bytes to the slow seat"
        )


# ---- Runs ----


def command_lines(seed, programs):
    """The command lines first, in a few seconds."""
    folder = tempfile.mkdtemp(prefix="box-commands-")
    started = time.monotonic()
    try:
        commands.all_of(folder, programs, seed)
    except Failure as failure:
        print(f"box test: command lines: {failure}", flush=True)
        print(f"box test: the programs' output is in {folder}", flush=True)
        return str(failure)
    shutil.rmtree(folder)
    print(f"box test: command lines: ok in {time.monotonic() - started:.0f} s", flush=True)
    return None


def one_run(seed, size, arguments, programs, measured=True, watch=True, planted=None):
    """Runs, and prints a line; the failure's words, or None. planted: the name of a fault that has to be found."""
    folder = tempfile.mkdtemp(prefix=f"box-{seed}-")
    started = time.monotonic()
    failure = None
    run = None
    try:
        run = Run(seed, size, programs, folder, measured, watch)
        run.all()
    except Failure as found:
        failure = str(found)
    finally:
        if failure is None and not arguments.keep and sys.exc_info()[0] is None:
            shutil.rmtree(folder)
            folder = None
    took = time.monotonic() - started
    if failure is None:
        print(f"box test: seed {seed}: ok in {took:.0f} s: {run.story()}", flush=True)
        if folder:
            print(f"box test: the programs' output is in {folder}")
    elif planted and not arguments.keep:
        shutil.rmtree(folder)
        print(f"box test: {planted}, seed {seed}, after {took:.0f} s: {failure}", flush=True)
    else:
        print(f"box test: seed {seed}: {failure}", flush=True)
        print(f"box test: after {took:.0f} s; the programs' output is in {folder}", flush=True)
    return failure


def build(folder, flags, arguments):
    """Compiles the three programs."""
    os.makedirs(folder, exist_ok=True)
    library = os.path.abspath(arguments.lib)
    for name in PROGRAMS:
        words = [os.environ.get("CC", "cc"), "-std=c99", "-D_POSIX_C_SOURCE=200809L", "-O2", "-Iinclude"] + flags
        words += [f"tools/{name}.c", "tools/lines.c", library, "-o", os.path.join(folder, name)]
        done = subprocess.run(words, cwd=ROOT, capture_output=True, text=True)
        if done.returncode != 0:
            raise Trouble(f"{' '.join(words)}: {done.stderr.strip()[:2000]}")
    return folder


# Planted faults: whether the proxies watch the lines, and words of which one stands in what a run has to say. Without
# the watch a fault has to be found by what the seats print alone.
PLANTED = (
    ("PLANT_REPEAT", True, ("comes next", "another content")),
    ("PLANT_REPEAT", False, ("another content", "another front", "messages are published", "TID")),
    ("PLANT_FORGET", False, ("comes next",)),
    ("PLANT_EARLY", True, ("before a login",)),
)


def planted(arguments):
    missed = []
    with tempfile.TemporaryDirectory(prefix="box-planted-") as folder:
        for name, watch, words in PLANTED:
            programs = os.path.join(folder, name)
            if not os.path.isdir(programs):
                build(programs, [f"-D{name}"], arguments)
            failure = one_run(arguments.seed, SMALL, arguments, programs, watch=watch, planted=name)
            how = name if watch else f"{name} (by the seats' output alone)"
            if failure is None:
                missed.append(f"{how} was not found")
            elif not any(word in failure for word in words):
                missed.append(f"{how} was not found, but something else: {failure}")
            else:
                print(f"box test: {how} found", flush=True)
    for words in missed:
        print(f"box test: {words}", flush=True)
    return 1 if missed else 0


def usage(arguments):
    parser = argparse.ArgumentParser(usage=__doc__, add_help=False)
    parser.add_argument("--help", "-h", action="store_true")
    parser.add_argument("--quick", action="store_true")
    parser.add_argument("--soak", type=float)
    parser.add_argument("--planted", action="store_true")
    parser.add_argument("--sanitize", action="store_true")
    parser.add_argument("--seed", type=int, default=1)
    parser.add_argument("--programs", default=os.path.join(ROOT, "target/tools"))
    parser.add_argument("--lib", default=os.path.join(ROOT, "target/lib/libftd.a"))
    parser.add_argument("--keep", action="store_true")
    return parser.parse_args(arguments)


def main():
    arguments = usage(sys.argv[1:])
    if arguments.help:
        print(__doc__)
        return 0
    try:
        if arguments.planted:
            return planted(arguments)
        if arguments.sanitize:
            flags = ["-O1", "-g", "-fsanitize=address,undefined", "-fno-sanitize-recover=all"]
            arguments.programs = build(os.path.join(ROOT, "target/tools-sanitize"), flags, arguments)
        for name in PROGRAMS:
            if not os.access(os.path.join(arguments.programs, name), os.X_OK):
                raise Trouble(f"there is no program {name} in {arguments.programs}: `make tools` builds them")
        programs = os.path.abspath(arguments.programs)
        seed, until = arguments.seed, time.monotonic() + 60 * (arguments.soak or 0)
        runs = 1 if arguments.quick or arguments.soak else 3
        if command_lines(seed, programs):
            return 1
        size = SMALL if arguments.quick else FULL
        while runs > 0 or time.monotonic() < until:
            if one_run(seed, size, arguments, programs, measured=not arguments.sanitize):
                return 1
            seed, runs = seed + 1, runs - 1
    except Trouble as trouble:
        print(f"box test: {trouble}", file=sys.stderr)
        return 2
    return 0


if __name__ == "__main__":
    sys.exit(main())
