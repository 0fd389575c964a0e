"""The programs of a test, what was published and what each seat printed.

Failure: something differs from what has to be; its words say what. Trouble: the test itself can't go on.
"""
import collections
import os
import random
import select
import signal
import socket
import subprocess
import sys
import threading
import time

import packets
import proxy as proxy_module

HERE = os.path.dirname(os.path.abspath(__file__))
ROOT = os.path.dirname(os.path.dirname(HERE))
SEATS = 16  # ports of a box
PATIENCE = 60.0  # seconds until something that has to come is given up


class Failure(Exception):
    pass


class Trouble(Exception):
    pass


# ---- Ports ----


def free_ports(count):
    """The first of so many free ports in a row, below those that the system gives away by itself."""
    chance = random.Random(f"{os.getpid()} {time.time()}")
    for _ in range(200):
        first = chance.randrange(10000, 32000 - count)
        taken = []
        try:
            for port in range(first, first + count):
                one = socket.socket()
                taken.append(one)
                one.setsockopt(socket.SOL_SOCKET, socket.SO_REUSEADDR, 1)
                one.bind(("127.0.0.1", port))
            return first
        except OSError:
            continue
        finally:
            for one in taken:
                one.close()
    raise Trouble(f"no {count} free ports in a row")


# ---- Processes ----


class Program:
    """A process with its output in files; it may be ended and started again."""

    def __init__(self, world, name, words, piped=False):
        self.world, self.name, self.words, self.piped = world, name, words, piped
        self.life = 0  # how often it was started
        self.process = None
        world.programs.append(self)

    def file(self, kind, life=None):
        return os.path.join(self.world.folder, f"{self.name}.{self.life if life is None else life}.{kind}")

    def start(self):
        self.life += 1
        with open(self.file("out"), "wb") as out, open(self.file("err"), "wb") as err:
            stdin = subprocess.PIPE if self.piped else subprocess.DEVNULL
            self.process = subprocess.Popen(self.words, stdin=stdin, stdout=out, stderr=err, cwd=self.world.folder)
        return self

    def running(self):
        return self.process is not None and self.process.poll() is None

    def last_words(self):
        try:
            with open(self.file("err"), "rb") as err:
                lines = err.read().decode(errors="replace").strip().split("\n")
                return " | ".join(lines[-3:])
        except OSError:
            return ""

    def look(self):
        """It must be running."""
        if self.process is not None and self.process.poll() is not None:
            status = self.process.returncode
            raise Failure(f"{self.name} has ended by itself, status {status}: {self.last_words()}")

    def kill(self):
        """kill -9"""
        if self.process is None:
            return
        self.look()
        self.process.kill()
        self.reap()

    def reap(self):
        self.process.wait()
        if self.process.stdin:
            self.process.stdin.close()
        self.process = None

    def stop(self):
        """SIGTERM, after which it has to end with status 0."""
        if self.process is None:
            return
        self.look()
        self.world.wait(self.catches, f"{self.name} to catch SIGTERM", PATIENCE / 4)
        self.process.send_signal(signal.SIGTERM)
        try:
            status = self.process.wait(PATIENCE / 4)
        except subprocess.TimeoutExpired:
            self.process.kill()
            self.reap()
            raise Failure(f"{self.name} hasn't ended {PATIENCE / 4:.0f} seconds after SIGTERM") from None
        words = self.last_words()
        self.reap()
        if status != 0:
            raise Failure(f"{self.name} ended with status {status} after SIGTERM: {words}")

    def status(self, name):
        """A line of /proc/PID/status."""
        with open(f"/proc/{self.process.pid}/status", encoding="ascii") as status:
            for line in status:
                if line.startswith(name + ":"):
                    return line.split()[1]
        return "0"

    def catches(self):
        """It is so far that it catches SIGTERM: a program that has just been started may not be."""
        return bool(int(self.status("SigCgt"), 16) >> (signal.SIGTERM - 1) & 1)

    def abandon(self):
        """At the end of a test that failed."""
        if self.process is not None:
            if self.process.poll() is None:
                self.process.kill()
            self.reap()

    def descriptors(self):
        return len(os.listdir(f"/proc/{self.process.pid}/fd"))

    def memory(self):
        """VmRSS in bytes."""
        return int(self.status("VmRSS")) * 1024


class Tail:
    """Lines of a file that another process writes, as far as they are whole."""

    def __init__(self, path):
        self.file = open(path, "rb")
        self.rest = b""

    def lines(self):
        while True:
            data = self.file.read(1 << 20)
            if not data:
                return
            data = self.rest + data
            *whole, self.rest = data.split(b"\n")
            yield from whole

    def close(self):
        self.file.close()


class Proxy(Program):
    """tests/box/proxy.py"""

    def __init__(self, world, name, lines):
        words = [sys.executable, "-SE", os.path.join(HERE, "proxy.py"), "--seed", "0"]
        self.lines = [line[0] for line in lines]
        for line in lines:
            words += ["--line", ":".join(str(part) for part in line)]
        super().__init__(world, name, words + ([] if world.watch else ["--unwatched", "yes"]), piped=True)
        self.tail = None
        self.counts = collections.Counter()  # of all lives, as far as they were told

    def start(self):
        self.words[4] = f"{self.world.seed}.{self.name}.{self.life}"
        super().start()
        if self.tail:
            self.tail.close()
        self.tail = Tail(self.file("out"))
        self.listening = False
        self.world.wait(lambda: self.poll() or self.listening, f"{self.name} to listen")
        return self

    def poll(self):
        self.look()
        for line in self.tail.lines():
            words = line.decode().split()
            if words[0] == "wrong":
                raise Failure(f"on the line {words[1]}: {' '.join(words[2:])}")
            if words[0] == "listening":
                self.listening = True
            elif words[0] == "counts":
                for word in words[1:]:
                    what, n = word.split("=")
                    self.counts[what] += int(n)
                self.told = True
            else:
                raise Trouble(f"{self.name} says {line.decode()}")

    def command(self, *words):
        self.look()
        self.process.stdin.write((" ".join(str(word) for word in words) + "\n").encode())
        self.process.stdin.flush()

    def tell(self):
        """Adds up what it has done."""
        self.told = False
        self.command("counts")
        self.world.wait(lambda: self.poll() or self.told, f"the counts of {self.name}")

    def kill(self):
        self.poll()
        super().kill()


class Exchange(Program):
    """ftdexchange, driven by its standard input."""

    def __init__(self, world, port, options):
        super().__init__(world, "exchange", [world.tool("ftdexchange"), "--port", str(port)] + options, piped=True)
        self.pending = collections.deque()  # answers that are owed
        self.tail = None

    def start(self):
        super().start()
        self.tail = Tail(self.file("out"))
        return self

    def say(self, line, answer):
        self.look()
        try:
            self.process.stdin.write(line.encode() + b"\n")
            self.process.stdin.flush()
        except BrokenPipeError:
            time.sleep(0.2)
            self.look()
            raise Failure("the exchange has closed its standard input") from None
        self.pending.append(answer)

    def open(self, date, series):
        self.world.ledger.open(date)
        self.say(f"open {date} " + " ".join(series), f"opened {date}")

    def publish(self, series, tid, content):
        date, at = self.world.ledger.add(series, tid, content)
        spelled = f"0x{tid:04x}" if at % 2 else f"{tid:08X}"  # both ways to write a TID
        self.say(f"publish {series} {spelled} {content.hex() or '-'}", f"published {series} {date} {at}")

    def poll(self):
        self.look()
        for line in self.tail.lines():
            if not self.pending:
                raise Failure(f"the exchange says {line.decode()!r} without being asked")
            answer = self.pending.popleft()
            if line.decode() != answer:
                raise Failure(f"the exchange says {line.decode()!r}, and not {answer!r}")

    def settle(self):
        self.world.wait(lambda: self.poll() or not self.pending, "the exchange's answers")


class Ledger:
    """What was published: of each day and series the rest of the line that a seat prints (TID and content)."""

    def __init__(self):
        self.days = {}
        self.date = None
        self.bytes = 0  # of the day, with 16 for each message, as the log has them

    def open(self, date):
        self.date = date
        self.days[date] = collections.defaultdict(list)
        self.bytes = 0

    def add(self, series, tid, content):
        row = self.days[self.date][series]
        row.append(f"{tid:08x} {content.hex() or '-'}")
        self.bytes += 16 + len(content)
        return self.date, len(row)

    def published(self, date, series):
        return len(self.days[date][series]) if date in self.days else 0

    def check(self, who, series, date, number, rest):
        """The message is the one that was published under the number."""
        where = f"{who}, series {series}, day {date}, number {number}"
        if date not in self.days:
            raise Failure(f"{where}: no such day was opened")
        row = self.days[date][series]
        if not 1 <= number <= len(row):
            raise Failure(f"{where}: only {len(row)} messages are published")
        expected = row[number - 1]
        if rest != expected:
            tid, content = rest.split(" ") if " " in rest else (rest, "")
            tid_there, content_there = expected.split(" ")
            if tid != tid_there:
                raise Failure(f"{where}: TID {tid}, published was {tid_there}")
            found = [n for n, one in enumerate(row, 1) if one == rest]
            other = f"; it is what number {found[0]} has" if found else ""
            lengths = f"{len(content) // 2} bytes, published were {len(content_there) // 2}"
            raise Failure(f"{where}: another content ({lengths}){other}")


class Account:
    """What one end was handed on, held against the ledger line by line."""

    def __init__(self, ledger, who, series):
        self.ledger, self.who, self.series = ledger, who, series
        self.place = {one: (0, 0) for one in series}  # of each series: date and last number
        self.last = None  # series of the very last line
        self.again = set()  # series whose last line may come once more
        self.count = 0
        self.repeats = 0  # lines that came once more, as they may

    def forget(self):
        """It was started anew and knows nothing."""
        self.place = {one: (0, 0) for one in self.series}
        self.again = set()

    def killed(self):
        """By kill -9: its very last line may be printed once more."""
        if self.last is not None:
            self.again.add(self.last)

    def take(self, series, date, number, rest):
        if series not in self.place:
            raise Failure(f"{self.who}, series {series}, day {date}, number {number}: it asked for {self.series}")
        old, last = self.place[series]
        wanted = last + 1 if date == old else 1
        where = f"{self.who}, series {series}, day {date}, number {number}"
        if date < old:
            raise Failure(f"{where}: after day {old}")
        if number != wanted:
            if not (date == old and number == last and series in self.again):
                raise Failure(f"{where}: number {wanted} comes next")
            self.repeats += 1
        self.again.discard(series)
        self.ledger.check(self.who, series, date, number, rest)
        self.place[series] = (date, number)
        self.last = series
        self.count += 1

    def whole(self, date):
        """It has all that was published on the day."""
        for series, (own, last) in self.place.items():
            published = self.ledger.published(date, series)
            if published and (own, last) != (date, published):
                return False
        return True

    def lacks(self, date):
        parts = []
        for series, (own, last) in sorted(self.place.items()):
            published = self.ledger.published(date, series)
            if published and (own, last) != (date, published):
                has = f"number {last} of day {own}" if own else "nothing"
                parts.append(f"series {series}: has {has}, published are {published} of day {date}")
        return f"{self.who}: " + "; ".join(parts)


def take_line(account, line):
    """A line that ftdseat has printed."""
    words = line.decode(errors="replace").split(" ")
    try:
        series, date, number = (int(word) for word in words[:3])
        tid, content = words[3:]
        if len(tid) != 8:
            raise ValueError
    except ValueError:
        raise Failure(f"{account.who} prints a line of another form: {line[:100]!r}") from None
    account.take(series, date, number, f"{tid.lower()} {content}")


class Seat(Program):
    """ftdseat: what it prints is held against the ledger as it comes."""

    def __init__(self, world, name, port, series, state=True, options=()):
        words = [world.tool("ftdseat"), "--box", f"127.0.0.1:{port}", "--series", ",".join(map(str, series))]
        self.state = os.path.join(world.folder, f"{name}.state") if state else None
        if state:
            words += ["--state", self.state]
        super().__init__(world, name, words + list(options))
        self.account = Account(world.ledger, name, series)
        self.tail = None
        world.seats.append(self)

    def start(self):
        super().start()
        self.tail = Tail(self.file("out"))
        return self

    def poll(self):
        for line in self.tail.lines():
            take_line(self.account, line)

    def look_on(self):
        self.look()
        self.poll()

    def finish(self, killed):
        """What is left of its output after its end."""
        self.poll()
        rest = self.tail.rest
        self.tail.close()
        if rest and not killed:
            raise Failure(f"{self.name} has ended within a line: {rest[:100]!r}")
        if rest:
            words = rest.decode(errors="replace").split(" ", 3)
            if len(words) == 4:  # the part that is there must be the front of the line that was due
                series, date, number = (int(word) for word in words[:3])
                row = self.world.ledger.days.get(date, {}).get(series, [])
                due = row[number - 1] if 1 <= number <= len(row) else ""
                if not due.startswith(words[3].lower()):
                    raise Failure(f"{self.name}, series {series}, day {date}, number {number}: another front of a line")
        if self.state is None:
            self.account.forget()
        elif killed:
            self.account.killed()

    def kill(self):
        super().kill()
        self.finish(True)

    def stop(self):
        super().stop()
        self.finish(False)


# ---- Ends written here ----


class RawSeat:
    """A receiving end on a plain socket: logs in by packets built here, and holds against the ledger what comes."""

    def __init__(self, world, name, port, series, room=None):
        self.world, self.name, self.port, self.series, self.room = world, name, port, series, room
        self.account = Account(world.ledger, name, series)
        self.socket = None
        self.asked = []

    def connect(self, ahead=False):
        """A new line, and the logins of all series. ahead: behind all that is published, so that nothing comes."""
        self.close()
        self.socket = socket.socket()
        if self.room:
            self.socket.setsockopt(socket.SOL_SOCKET, socket.SO_RCVBUF, self.room)
        self.socket.settimeout(PATIENCE / 4)
        self.socket.connect(("127.0.0.1", self.port))
        self.watch = proxy_module.Watch()
        self.buffer = bytearray()
        self.chain = b""
        self.asked = []
        request = b""
        for series in self.series:
            date, last = self.account.place[series]
            if ahead:
                date = self.world.ledger.date
                last = self.world.ledger.published(date, series)
                self.account.place[series] = (date, last)
            packet = packets.login_packet(series, last + 1, date or None)
            self.watch.up(packets.Packet(packet))
            self.asked.append(series)
            request += packet
        self.socket.sendall(request)

    def close(self):
        if self.socket:
            self.socket.close()
            self.socket = None

    def beat(self):
        self.socket.sendall(packets.HEARTBEAT)

    def read(self, most=65536):
        """Reads some bytes and takes what is whole; False where the line has ended."""
        try:
            data = self.socket.recv(most)
        except ConnectionError:
            return False
        if not data:
            return False
        self.buffer += data
        for packet in packets.split(self.buffer):
            wrong = self.watch.down(packet)
            if wrong and self.world.watch:
                raise Failure(f"{self.name} is sent {wrong}")
            if packet.is_login():
                self.asked.pop(0)
            elif packet.kind == "message":
                self.chain += packet.content
                if packet.chain in "SL":
                    content, self.chain = self.chain, b""
                    rest = f"{packet.tid:08x} {content.hex() or '-'}"
                    self.account.take(packet.series, packet.date, packet.number, rest)
        return True

    def answered(self):
        """Reads until all logins are answered; False where the line ends before."""
        while self.asked:
            if not self.read():
                return False
        return True


class Helper(threading.Thread):
    """Something that goes on beside the test until it is stopped; what it finds is raised by join."""

    def __init__(self, name):
        super().__init__(name=name, daemon=True)
        self.found = None
        self.ending = threading.Event()

    def run(self):
        try:
            self.work()
        except (Failure, Trouble) as found:
            self.found = found
        except Exception as found:  # a mistake of the test itself
            self.found = Trouble(f"{self.name}: {type(found).__name__}: {found}")

    def look(self):
        if self.found:
            raise self.found

    def stop(self):
        self.ending.set()
        self.join(PATIENCE)
        self.look()


class SlowSeat(Helper):
    """Reads a byte at a time, through a receive buffer as small as there is."""

    def __init__(self, world, port, series, pause):
        super().__init__("slow seat")
        self.raw = RawSeat(world, "slow seat", port, series, room=1)
        self.pause = pause
        self.bytes = 0
        self.lines = 0

    def work(self):
        while not self.ending.is_set():
            try:
                self.raw.connect()
                self.lines += 1
                self.raw.socket.settimeout(0.2)
                beat = time.monotonic()
                while not self.ending.is_set():
                    if time.monotonic() - beat > 0.3:
                        self.raw.beat()
                        beat = time.monotonic()
                    try:
                        if not self.raw.read(1):
                            break
                        self.bytes += 1
                    except TimeoutError:
                        continue
                    if self.bytes % 16 == 0:
                        time.sleep(self.pause)
            except OSError:
                pass
            self.ending.wait(0.1)
        self.raw.close()


class Noise(Helper):
    """Connects and sends what no seat sends: any bytes, halves of packets, wrong logins; then goes, or stays."""

    def __init__(self, ports, seed, pause, date):
        super().__init__("noise")
        self.ports, self.pause, self.date = ports, pause, date
        self.chance = random.Random(f"{seed} noise")
        self.count = 0

    def bytes(self):
        chance = self.chance
        login = packets.login_packet(1, 1)
        kinds = (
            lambda: chance.randbytes(chance.randint(1, 3000)),
            lambda: login[: chance.randint(1, len(login) - 1)],
            lambda: packets.login_packet(chance.choice((0, 3, 65535)), 1),
            lambda: packets.login_packet(1, chance.choice((0, 999999, 4294967295))),
            lambda: packets.login_packet(1, 1, chance.choice((1, 4294967295))),
            lambda: bytes([1, 127, 255, 255]) + chance.randbytes(chance.randint(0, 70000)),
            lambda: bytes([9, 255, 255, 255]) + bytes(65790) + login,
            lambda: packets.HEARTBEAT * chance.randint(1, 500),
            lambda: login + login + login,
            lambda: login + chance.randbytes(200),
            lambda: packets.message_packet(1, self.date, 1, 0x7777, packets.field(0x7001, b"from a seat")),
            lambda: bytes([1, 0, 0, 1, 0]),
            lambda: b"",
        )
        return chance.choice(kinds)()

    def work(self):
        while not self.ending.wait(self.pause):
            with socket.socket() as line:
                line.settimeout(1)
                try:
                    line.connect(("127.0.0.1", self.chance.choice(self.ports)))
                    line.sendall(self.bytes())
                    self.count += 1
                    if self.chance.random() < 0.5:
                        select.select([line], [], [], 0.05)
                        line.recv(65536)
                except OSError:
                    pass


# ---- All of it ----


class World:
    def __init__(self, folder, programs, seed, watch=True):
        self.folder, self.tools, self.seed, self.watch = folder, programs, seed, watch
        self.programs, self.seats, self.helpers, self.proxies = [], [], [], []
        self.ledger = Ledger()
        self.exchange = None

    def tool(self, name):
        return os.path.join(self.tools, name)

    def look(self):
        """Takes in what all have printed since; anything wrong is raised here."""
        if self.exchange and self.exchange.process:
            self.exchange.poll()
        for one in self.programs:
            if isinstance(one, Proxy) and one.process:
                one.poll()
            elif isinstance(one, Seat) and one.process:
                one.look_on()
            else:
                one.look()
        for helper in self.helpers:
            helper.look()

    def wait(self, done, what, seconds=PATIENCE):
        """Waits until something is done."""
        until = time.monotonic() + seconds
        while not done():
            if time.monotonic() > until:
                raise Failure(f"waited {seconds:.0f} seconds for {what}")
            time.sleep(0.02)

    def pause(self, seconds):
        """Waits, and looks on."""
        until = time.monotonic() + seconds
        while True:
            self.look()
            left = until - time.monotonic()
            if left <= 0:
                return
            time.sleep(min(left, 0.05))

    def wait_whole(self, seconds=PATIENCE):
        """Until every seat has the whole of the last day; longer while messages come, up to five times as long."""
        date = self.ledger.date
        until, count = time.monotonic() + seconds, -1
        last = until + 4 * seconds
        while True:
            self.look()
            lacking = [seat for seat in self.seats if seat.process and not seat.account.whole(date)]
            if not lacking:
                return
            now = sum(seat.account.count for seat in self.seats)
            if now != count:
                until, count = min(time.monotonic() + seconds, last), now
            if time.monotonic() > until:
                words = "; ".join(seat.account.lacks(date) for seat in lacking[:4])
                raise Failure(f"{len(lacking)} seats lack messages, after {seconds:.0f} seconds without any: {words}")
            time.sleep(0.03)

    def abandon(self):
        for helper in self.helpers:
            helper.ending.set()
        for one in self.programs:
            one.abandon()
