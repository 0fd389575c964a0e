"""Small tests of one or two programs: usage, wrong options, wrong files, the exchange's commands, a full log, a seat
whose output nobody takes, a seat that doesn't read, lines
that lose packets."""
import fcntl
import os
import random
import subprocess
import termios
import time

import packets
from world import PATIENCE, Account, Exchange, Failure, Program, Proxy, RawSeat, Seat, Tail, World
from world import free_ports, take_line

DATE = 20041231


def ends(words, status, told, text=b""):
    """The program ends with that status and prints on that stream alone: `out` or `err`."""
    name = os.path.basename(words[0])
    shown = " ".join([name] + words[1:])
    try:
        done = subprocess.run(words, input=text, capture_output=True, timeout=PATIENCE / 4)
    except subprocess.TimeoutExpired:
        raise Failure(f"{shown}: it goes on, and status {status} was expected") from None
    if done.returncode != status:
        raise Failure(f"{shown}: status {done.returncode}, expected {status}: {done.stderr.decode()[:200]!r}")
    if bool(done.stdout) != (told == "out") or bool(done.stderr) != (told == "err"):
        raise Failure(f"{shown}: prints on the wrong stream, or nothing; expected was {told}")
    return done.stdout + done.stderr


def usage(world, port):
    right = {
        "ftdbox": ["--above", "127.0.0.1:1", "--seats", str(port), "--series", "1,2"],
        "ftdexchange": ["--port", str(port)],
        "ftdseat": ["--box", "127.0.0.1:1", "--series", "1,2"],
    }
    for name, words in right.items():
        tool = world.tool(name)
        text = ends([tool, "--help"], 0, "out")
        for option in words[::2]:
            if option.encode() not in text:
                raise Failure(f"{name} --help doesn't say {option}")
        ends([tool], 2, "err")
        ends([tool] + words + ["--unheard-of", "1"], 2, "err")
        ends([tool] + words + ["--beat"], 2, "err")
        ends([tool] + words + ["--beat", "soon"], 2, "err")
        ends([tool] + words[:-1] + ["none"], 2, "err")
        contents = {"ftdbox": ["--login", "--answer"], "ftdexchange": ["--answer"], "ftdseat": ["--login"]}[name]
        for option in contents:
            ends([tool] + words + [option, "00000023000100"], 2, "err")
    for text in ("nonsense\n", "", "1 20041231 5\n", "ftdseat 1\nseries 1 date 20041231 last -1\nend\n"):
        path = os.path.join(world.folder, "wrong.state")
        with open(path, "w", encoding="ascii") as file:
            file.write(text)
        ends([world.tool("ftdseat")] + right["ftdseat"] + ["--state", path], 1, "err")


def script(world, port):
    """The exchange's answers, the wrong lines among them; and that a burst of short commands is answered at once."""
    exchange = Exchange(world, port, ["--log", "1000000"])
    world.exchange = exchange
    exchange.start()
    text = packets.field(0x7001, b"text").hex()
    lines = [
        ("publish 1 7777 " + text, "refused 13 "),
        ("# a comment", None),
        ("", None),
        ("open 20041231 1:1000 2", "opened 20041231"),
        ("open 20041231 1", "refused 11 "),
        ("open 20041230 1", "refused 11 "),
        ("publish 1 7777 " + text, "published 1 20041231 1"),
        ("publish 2 0x7777 " + text.upper(), "published 2 20041231 1"),
        ("publish 2 0x00007777 -", "published 2 20041231 2"),
        ("publish 3 7777 " + text, "refused 13 "),
        ("publish 1 7777 " + text[:-2], "refused 7 "),
        ("publish 1 2003 " + text, "refused 10 "),
        ("publish 1 7777 " + text[:-1], "bad line"),
        ("publish 1 7777 xy", "bad line"),
        ("publish one 7777 " + text, "bad line"),
        ("publish", "bad line"),
        ("shout", "bad line"),
        ("open", "bad line"),
        ("publish 1 7777 " + "00" * 40000, "bad line"),
        ("publish 1 7777 " + "00" * 100000, "bad line"),
        ("publish 1 7777 " + text, "published 1 20041231 2"),
        ("open 20050104 1 2", "opened 20050104"),
        ("publish 2 7777 " + text, "published 2 20050104 1"),
    ]
    for line, _ in lines:
        exchange.process.stdin.write(line.encode() + b"\n")
    exchange.process.stdin.flush()
    answers = [answer for _, answer in lines if answer]
    found = take(exchange, len(answers), "the exchange's answers")
    at = [n for n, (_, answer) in enumerate(lines, 1) if answer]
    for place, answer, line in zip(at, answers, found):
        expected = f"bad line {place}: " if answer.startswith("bad line") else answer
        words = expected.endswith(" ") and line.startswith(expected) and len(line) > len(expected)
        if line != expected and not words:
            raise Failure(f"the exchange says {line!r} to {lines[place - 1][0][:60]!r}, and not {expected!r}")
    count = 8000
    exchange.process.stdin.write(b"publish 1 7777 -\n" * count)
    exchange.process.stdin.flush()
    started = time.monotonic()
    found = take(exchange, count, f"the answers to {count} short commands")
    took = time.monotonic() - started
    if found[-1] != f"published 1 20050104 {count}":
        raise Failure(f"the exchange says {found[-1]!r} at the end of {count} short commands")
    if took > 8:
        raise Failure(f"{count} short commands took {took:.0f} seconds")
    exchange.stop()
    world.exchange = None


def take(exchange, count, what):
    found = []

    def done():
        exchange.look()
        found.extend(line.decode() for line in exchange.tail.lines())
        return len(found) >= count

    exchange.world.wait(done, what, PATIENCE / 3)
    if len(found) > count:
        raise Failure(f"the exchange says {found[count]!r} without being asked")
    return found


def full_log(world, port):
    """A log that is full: the broadcast series is refused, the private one goes on within its reserve; and so below."""
    log, reserve = 20000, 6000
    exchange = Exchange(world, port, ["--log", str(log)])
    world.exchange = exchange
    words = [world.tool("ftdbox"), "--above", f"127.0.0.1:{port}", "--seats", str(port + 1), "--series", "1,2"]
    words += ["--log", str(log), "--reserve", f"1={reserve}", "--pause", "20:100"]
    box = Program(world, "full-box", words)
    seat = Seat(world, "full-seat", port + 1, [1, 2], options=["--pause", "20:100"])
    for one in (exchange, box, seat):
        one.start()
    content = packets.field(0x7001, bytes(978))  # 1000 bytes of the log each, with its head
    for date in (DATE, DATE + 1):
        exchange.open(date, [f"1:{reserve}", "2"])
        for _ in range((log - reserve) // 1000):
            exchange.publish(2, 0x7777, content)
        exchange.say(f"publish 2 7777 {content.hex()}", "refused 18 too small")
        for _ in range(reserve // 1000):
            exchange.publish(1, 0x7777, content)
        exchange.say(f"publish 1 7777 {content.hex()}", "refused 18 too small")
        exchange.settle()
        world.wait_whole(PATIENCE / 3)
    for one in (seat, box, exchange):
        one.stop()


SET_PIPE_SIZE = 1031  # F_SETPIPE_SZ of fcntl


def waiting(fd):
    """Bytes in a pipe that nobody has read yet."""
    return int.from_bytes(fcntl.ioctl(fd, termios.FIONREAD, bytes(4)), "little")


def blocked_seat(world, port):
    """A seat whose output is a pipe that is full is ended. What it was about to print isn't noted in its state: after
    the restart nothing is left out, and nothing but the very last line comes again."""
    exchange = world.exchange = Exchange(world, port, [])
    exchange.start()
    exchange.open(DATE, ["1"])
    for i in range(60):
        exchange.publish(1, 0x7777, packets.field(0x7001, bytes([i]) * (3000 if i % 7 == 5 else 40)))
    exchange.settle()
    for n, how in enumerate(("kill", "stop", "kill")):
        words = [world.tool("ftdseat"), "--box", f"127.0.0.1:{port}", "--series", "1", "--pause", "20:100"]
        words += ["--state", os.path.join(world.folder, f"blocked{n}.state")]
        account = Account(world.ledger, f"blocked seat, {how}", [1])
        reading, writing = os.pipe()
        fcntl.fcntl(writing, SET_PIPE_SIZE, 4096)
        os.write(writing, b"#" * (n * 500) + b"\n")  # so that it is full at another place each time
        blocked = subprocess.Popen(words, stdout=writing, stderr=subprocess.DEVNULL, stdin=subprocess.DEVNULL)
        try:
            until, there = time.monotonic() + PATIENCE / 4, -1
            while there < 1000 or there != waiting(reading):
                if time.monotonic() > until:
                    raise Failure(f"a seat prints nothing into a pipe ({there} bytes)")
                there = waiting(reading)
                time.sleep(0.15)
            if how == "kill":
                blocked.kill()
            else:
                blocked.terminate()
            try:
                status = blocked.wait(PATIENCE / 4)
            except subprocess.TimeoutExpired:
                raise Failure("a seat whose output nobody takes goes on after SIGTERM") from None
            if how == "stop" and status not in (0, 1):
                raise Failure(f"a seat whose output nobody takes ended with status {status} after SIGTERM")
        finally:
            blocked.kill()
            blocked.wait()
            os.close(writing)
        with os.fdopen(reading, "rb") as pipe:
            *lines, _ = pipe.read().split(b"\n")
        for line in lines[1:]:
            take_line(account, line)
        account.killed()
        again = Program(world, f"blocked{n}", words)
        again.start()
        tail = Tail(again.file("out"))

        def whole():
            again.look()
            for line in tail.lines():
                take_line(account, line)
            return account.whole(DATE)

        world.wait(whole, f"the rest of what a seat lacks ({account.who})", PATIENCE / 3)
        again.stop()
        tail.close()
    exchange.stop()


def slow_seat(world, port):
    """A seat that reads nothing, while more comes than a socket holds: another seat gets all of it; then the slow one
    reads a byte at a time, then pieces of any size, and gets the same."""
    chance = random.Random(f"{world.seed} slow seat")
    log = 16 << 20
    exchange = world.exchange = Exchange(world, port, ["--log", str(log)])
    words = [world.tool("ftdbox"), "--above", f"127.0.0.1:{port}", "--seats", str(port + 1), "--series", "1,2"]
    words += ["--log", str(log), "--pause", "20:100", "--beat", "0.2", "--silence", "0"]
    box = Program(world, "box-of-slow-seat", words)
    seat = Seat(world, "beside-slow-seat", port + 1, [1, 2], options=["--pause", "20:100"])
    exchange.start()
    exchange.open(DATE, ["1", "2"])
    box.start()
    seat.start()
    raw = RawSeat(world, "slow seat", port + 4, [1, 2], room=1)

    def logged_in():
        world.look()
        try:
            raw.connect()
            return raw.answered()
        except OSError:
            return False

    def publish(count, long_share):
        for i in range(count):
            series = 1 + i % 2
            exchange.publish(series, *packets.make_message(chance, series, long_share))

    world.wait(logged_in, "a seat's login", PATIENCE / 3)
    publish(250, 0.8)  # some 4 million bytes
    world.wait_whole(PATIENCE / 3)
    exchange.settle()
    until = time.monotonic() + PATIENCE
    pieces = 0
    while not raw.account.whole(DATE):
        if time.monotonic() > until:
            raise Failure(f"{PATIENCE:.0f} seconds are over: " + raw.account.lacks(DATE))
        if not raw.read(1 if pieces < 3000 else chance.choice((1, 100, 5000, 100000))):
            raise Failure("the box has closed the line of a slow seat")
        pieces += 1
        if pieces % 2500 == 0 and pieces <= 10000:
            publish(10, 0.3)
            world.pause(0.3)
    world.wait_whole(PATIENCE / 3)
    raw.close()
    for one in (seat, box, exchange):
        one.stop()


def loose_lines(world, port):
    """Packets are lost, come again or late on one line; nothing is closed but by an end that misses one: no line is
    given up for silence here. When that has stopped, one message more has to bring all."""
    exchange = world.exchange = Exchange(world, port, ["--silence", "0"])
    proxy = Proxy(world, "loose-lines", [("above", port + 1, port), ("below", port + 2, port + 3)])
    words = [world.tool("ftdbox"), "--above", f"127.0.0.1:{port + 1}", "--seats", str(port + 3), "--series", "1,2"]
    box = Program(world, "loose-box", words + ["--pause", "20:100", "--silence", "0", "--beat", "0.1"])
    seat = Seat(world, "loose-seat", port + 2, [1, 2], options=["--pause", "20:100", "--silence", "0"])
    chance = random.Random(f"{world.seed} loose lines")
    for one in (exchange, proxy, box, seat):
        one.start()
    exchange.open(DATE, ["1", "2"])
    losing, mixing = (0.2, 0, 0), (0, 0.2, 0.2)
    for line, faults in (("above", losing), ("below", losing), ("above", mixing), ("below", mixing)):
        world.wait_whole(PATIENCE / 3)
        proxy.command("faults", line, *faults, 0)
        for _ in range(40):
            series = chance.choice((1, 2))
            exchange.publish(series, *packets.make_message(chance, series, 0.1))
        world.pause(0.4)
        proxy.command("calm", "all")
        for series in (1, 2):
            exchange.publish(series, 0x7777, packets.field(0x7001, b"the last one"))
    world.wait_whole(PATIENCE / 3)
    proxy.tell()
    if not proxy.counts["lost"] or not proxy.counts["late"]:
        raise Failure(f"the proxy has lost nothing: {dict(proxy.counts)}")
    for one in (seat, box, proxy, exchange):
        one.stop()


def all_of(folder, programs, seed):
    base = free_ports(20)
    for test in (usage, script, full_log, blocked_seat, slow_seat, loose_lines):
        world = World(folder, programs, seed)
        try:
            test(world, base)
        finally:
            world.abandon()
