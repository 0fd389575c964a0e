#!/usr/bin/env python3
"""The decoder of captures (tools/ftddump.c) beside an independent reader: what both print is the same, line by line.

    tests/dump.py [PROGRAM]     PROGRAM: target/tools/ftddump, where it is not given (make tools)

The reader is that of tests/captures/make.py (packets); fields, items and make-up are read here, with the tables of
tests/reader/src/tables.rs; both are written from the papers alone. Of refusals the number is compared, of an
enumeration's value that it has a meaning. Compared are
- the captures of crates/captures/data and samples/capture.bin, packet by packet;
- captures made here, with every field of Appendix D and every message of Appendix E, right ones and ones with a wrong
  item, length or make-up;
- messages joined from flows of several series (--messages), whole ones and ones with packets lost, repeated and late;
- filters, -x, reading through a pipe in pieces, exit statuses.
Then differences are planted, in captures and in what is printed, and each has to be found. Needs Python 3 and the
program. Exit status 1 if anything differs.
"""
import datetime
import os
import pathlib
import random
import re
import subprocess
import sys
import tempfile

sys.dont_write_bytecode = True
root = pathlib.Path(__file__).resolve().parent.parent
sys.path.insert(0, str(root / "tests" / "captures"))
import make  # noqa: E402  the independent reader of packets

program = sys.argv[1] if len(sys.argv) > 1 else str(root / "target" / "tools" / "ftddump")
wrong = 0


def need(ok, *words):
    global wrong
    if not ok:
        wrong += 1
        print("WRONG", *words)


# ─── Tables ───

rust = (root / "tests" / "reader" / "src" / "tables.rs").read_text(encoding="utf-8")
found_tids = re.findall(r'Tid \{ number: (\w+), name: "(\w+)", mode: (\w+) \}', rust)
TIDS = {int(n, 16): (name, mode.lower()) for n, name, mode in found_tids}
FIELDS, MESSAGES = {}, {}
for line in rust.split("\n"):
    field = re.match(r' +Field \{ fid: (\w+), name: "(\w+)", width: (\d+),', line)
    item = re.match(r' +Item \{ name: "(\w+)", at: (\d+), width: (\d+), kind: (\w+)(?:\((.*)\))? \}', line)
    message = re.match(r' +Message \{ tid: (\w+), direction: (\w+), name: "(\w+)"', line)
    listed = re.match(r" +Line \{ fid: (\w+), least: (\d+), most: (\w+)(?:\((\d+)\))? \}", line)
    if field:
        FIELDS[int(field[1], 16)] = last = (field[2], int(field[3]), [])
    elif item:
        numbers = [int(x) for x in re.findall(r"\d+", item[5] or "")]
        last[2].append((item[1], int(item[2]), int(item[3]), item[4], numbers))
    elif message:
        MESSAGES[int(message[1], 16), message[2].lower()] = last_message = (message[3], [])
    elif listed:
        last_message[1].append((int(listed[1], 16), int(listed[2]), int(listed[4]) if listed[4] else None))
assert (len(TIDS), len(FIELDS), len(MESSAGES), sum(len(f[2]) for f in FIELDS.values())) == (32, 46, 52, 379)


# ─── What should be printed ───


def quoted(data):
    def one(b):
        return "\\x%02X" % b if b < 0x20 or b > 0x7E else "\\" + chr(b) if chr(b) in '"\\' else chr(b)

    return '"%s"' % "".join(map(one, data))


def whole_number(text):
    """A Number's value; None where it is none."""
    digits = text[1:] if text[:1] == b"-" else text
    if not digits or not all(48 <= b <= 57 for b in digits):
        return None
    value = int(digits)
    return None if text[:1] == b"-" and value == 0 else -value if text[:1] == b"-" else value


def value_of(kind, numbers, data):
    """An item's value as it is printed; None where it is none of its type."""
    if kind == "Char":
        if not numbers:
            return str(data[0])
        return "%d, MEANING" % data[0] if data[0] == 0 or data[0] in numbers else None
    if kind in ("Word", "Int"):
        return str(make.number(data))
    if kind == "Text":
        return quoted(data.rstrip(b" ")) if all(b >= 0x20 and b != 0x7F for b in data) else None
    if kind == "Number":
        value = whole_number(data)
        return None if value is None else str(value)
    if kind == "Float":
        decimals = numbers[1]
        if data[-decimals - 1] != ord("."):
            return None
        value = whole_number(data[: -decimals - 1] + data[-decimals:])
        if value is None:
            return None
        return "%s%d.%0*d" % ("-" if value < 0 else "", abs(value) // 10**decimals, decimals, abs(value) % 10**decimals)
    assert kind == "Date"
    if data == b" " * 8:
        return "unused"
    if not all(48 <= b <= 57 for b in data) or int(data[:4]) < 1601:
        return None
    try:
        datetime.date(int(data[:4]), int(data[4:6]), int(data[6:8]))
    except ValueError:
        return None
    return data.decode()


def fields_in(content):
    at = 0
    while at < len(content):
        size = make.number(content[at + 4 : at + 6])
        yield at, make.number(content[at : at + 4]), content[at + 6 : at + 6 + size]
        at += 6 + size


def field_lines(content, offset):
    """The lines of a content's fields, and the refusals among them."""
    lines, found = [], set()
    for at, fid, data in fields_in(content):
        name, width, items = FIELDS.get(fid, ("unknown", None, []))
        head = "    field 0x%08X %s at %d, %d bytes" % (fid, name, offset + at, len(data))
        if len(data) != width:
            lines.append(head + ": " + quoted(data))
            if width is not None:
                lines.append("        %d bytes expected, refused 8" % width)
                found.add(8)
            continue
        lines.append(head)
        for item, place, wide, kind, numbers in items:
            value = value_of(kind, numbers, data[place : place + wide])
            if value is None:
                value = "%s at %d, refused 9" % (quoted(data[place : place + wide]), offset + at + 6 + place)
                found.add(9)
            lines.append("        %s %s" % (item, value))
    return lines, found


def made_up(tid, direction, content):
    """The make-up is right; also of a message that there isn't in the direction."""
    fids = [fid for _, fid, _ in fields_in(content)]
    return all(least <= fids.count(fid) and (most is None or fids.count(fid) <= most)
               for fid, least, most in MESSAGES.get((tid, direction), ("", []))[1])


def judged(tid, content, offset, whole):
    """The lines of TID, fields and verdict."""
    lines, found = field_lines(content, offset)
    direction, refusal = "down", min(found) if found else 0
    if not refusal and not made_up(tid, "down", content):
        refusal = 10
        login = tid == 0x16 and any(fid == 0x23 for _, fid, _ in fields_in(content))
        if (tid, "up") in MESSAGES and (made_up(tid, "up", content) or login):
            direction, refusal = "up", 0 if made_up(tid, "up", content) else 10
    if refusal == 10 and not whole:
        refusal = 0
    name, mode = TIDS.get(tid, ("unknown", ""))
    head = "    TID 0x%08X %s" % (tid, name) + (", " + mode if mode else "")
    message = MESSAGES.get((tid, direction), (name, []))[0]
    head += ", " + message if message != name else ""
    return head, lines, ["    content check, %s: refused %d" % (direction, refusal)] if refusal else []


NAMES = {0: "nothing", 1: "time", 2: "compression", 3: "state", 4: "keep alive", 5: "trade date", 6: "target"}
NAMES[0x70] = "place"


def tag_lines(extension):
    lines = []
    for kind, data in make.tags_of(extension):
        line = "    tag 0x%02X, " % kind + (NAMES[kind] if kind in NAMES else "%d bytes" % len(data))
        if kind == 6:
            line += " " + quoted(data)
        elif kind in NAMES:
            line += " %d" % make.number(data) if data else ""
        elif data:
            line += ": " + " ".join("%02X" % b for b in data)
        lines.append(line)
    return lines


def packet_block(at, data, words, size):
    """The block of the packet at the front of the data."""
    kind, room, length = data[0], data[1], make.number(data[2:4])
    name = {"heart": "heartbeat", "link": "link", "skip": "skipped", "msg": "message"}[words[0]]
    lines = ["%d %s, type %d, %d bytes" % (at, name, kind, size)]
    if words[0] == "skip":
        return lines + ["    extension of %d bytes, body of %d" % (room, length)]
    lines += tag_lines(data[4 : 4 + room])
    if words[0] == "msg":
        start = 4 + room + 16
        head, fields, verdict = judged(int(words[1], 16), data[start:size], at + start, words[2] == "S")
        lines += [head, "    series %s, number %s, chain %s, %s fields" % (words[3], words[4], words[2], words[5])]
        lines += fields + verdict
    return lines


def expected(capture):
    """All blocks of a capture, each a list of lines."""
    blocks, at = [], 0
    while at < len(capture):
        data = capture[at : at + 4 + 255 + 65535]
        words, size = make.read(data)
        if words[0] == "refused":
            head = "    type %d, extension of %d bytes, body of %d; the rest of the file isn't read"
            return blocks + [["%d refused %s" % (at, words[1]), head % (data[0], data[1], make.number(data[2:4]))]]
        if words[0] == "short":
            rest = len(capture) - at
            missing = "at least %d" % (4 - rest) if rest < 4 else "%d" % (4 + data[1] + make.number(data[2:4]) - rest)
            return blocks + [["%d short, %d bytes, %s missing" % (at, rest, missing)]]
        blocks.append(packet_block(at, data, words, size))
        at += size
    return blocks + [["%d end" % at]]


# ─── What is printed ───


def run(options, capture=None, files=()):
    done = subprocess.run([program, *options, *files], input=b"" if capture is None else capture, capture_output=True)
    return done.returncode, done.stdout.decode("ascii"), done.stderr.decode()


def plain(text):
    """The lines printed, refusals as numbers alone and meanings as one word."""
    lines = []
    for line in text.split("\n")[:-1]:
        line = re.sub(r"(refused \d+), [^\"]*$", r"\1", line)
        lines.append(re.sub(r"^( {8}\w+ \d+), [a-z][a-z ,]*$", r"\1, MEANING", line))
    return lines


def blocks_of(lines):
    blocks = []
    for line in lines:
        if line.startswith(" "):
            blocks[-1].append(line)
        else:
            blocks.append([line])
    return blocks


def dumped(captures, options=()):
    """What is printed of each capture; all are files of one run."""
    with tempfile.TemporaryDirectory() as folder:
        for i, capture in enumerate(captures):
            (pathlib.Path(folder) / ("%06d" % i)).write_bytes(capture)
        (pathlib.Path(folder) / "none").write_bytes(b"")  # so that there are always several
        names = [os.path.join(folder, "%06d" % i) for i in range(len(captures))] + [os.path.join(folder, "none")]
        status, out, err = run(options, files=names)
    need(err == "" and status in (0, 1), "status", status, err)
    parts, lines = [], plain(out)
    for line in lines:
        if line.startswith("file "):
            parts.append([])
        else:
            parts[-1].append(line)
    need(len(parts) == len(captures) + 1, "files", len(parts), len(captures))
    return [blocks_of(p) for p in parts[: len(captures)]]


def first_difference(one, other):
    for a, b in zip(one + [None], other + [None]):
        if a != b:
            for c, d in zip((a or []) + [None], (b or []) + [None]):
                if c != d:
                    return c, d
    return None


def compare(name, captures, options=()):
    packets = 0
    for i, (capture, here) in enumerate(zip(captures, dumped(captures, options))):
        there = expected(capture)
        packets += len(there)
        need(here == there, name, i, "program and reader:", first_difference(here, there))
    print("%s: %d captures, %d blocks" % (name, len(captures), packets))


# ─── Captures ───


def records(path):
    data, captures = path.read_bytes(), []
    while data:
        size, text = make.number(data[:4]), make.number(data[4:8])
        captures.append(data[8 : 8 + size])
        data = data[8 + size + text :]
    return captures


def some_item(rng, width, kind, numbers):
    """A right value."""
    if kind == "Char":
        return bytes([rng.choice(numbers + [0]) if numbers else rng.randrange(256)])
    if kind in ("Word", "Int"):
        return rng.randbytes(width)
    if kind == "Text":
        some = [0x20, 0x22, 0x41, 0x5C, 0x7E, 0x80, 0xFF]
        text = [rng.choice(some + [rng.randrange(0x20, 0x7F)]) for _ in range(rng.randrange(width + 1))]
        return bytes(text).ljust(width)
    if kind == "Date":
        day = b"2004%02d%02d" % (rng.randrange(1, 13), rng.randrange(1, 29))
        return rng.choice([b" " * 8, b"20040229", b"16010101", b"99991231", day])
    decimals = numbers[1] if kind == "Float" else 0
    digits = width - (1 if decimals else 0)
    number = rng.choice([0, 1, 10 ** rng.randrange(digits - 1), rng.randrange(10 ** (digits - 1))])
    text = b"%0*d" % (digits, number if rng.randrange(2) or not number else -number)
    return text[: digits - decimals] + b"." + text[digits - decimals :] if decimals else text


def some_field(rng, fid):
    return b"".join(some_item(rng, width, kind, numbers) for _, _, width, kind, numbers in FIELDS[fid][2])


def typed(rng):
    """Every field, right, with a byte changed, and a byte too long or too short."""
    captures = []
    for fid in FIELDS:
        parts = []
        for turn in range(12):
            data = bytearray(some_field(rng, fid))
            if turn >= 3:  # a byte at each turn's item
                _, at, width, _, _ = rng.choice(FIELDS[fid][2])
                data[at + rng.randrange(width)] = rng.choice([0, 1, 7, 0x1F, 0x20, 0x2D, 0x2E, 0x30, 0x39, 0x7F, 0xFF])
            if turn == 10:
                data.append(0x20)
            if turn == 11:
                data.pop()
            fields = [make.field(fid, bytes(data))]
            parts.append(make.message(0x7777, "S", 3, turn + 1, fields, make.DATE + make.place(0)))
        captures.append(b"".join(parts))
    return captures


def messages(rng):
    """Every message: with the fewest fields, with more, and with one taken away or one too many."""
    captures = []
    for (tid, _), (_, lines) in sorted(MESSAGES.items()):
        fewest = [fid for fid, least, _ in lines for _ in range(least)]
        more = fewest + [fid for fid, least, most in lines if most is None or most > least]
        sets = [fewest, more, fewest[1:], more + [lines[0][0]], more + more, [0x7001], []]
        parts = []
        for letter in "SFCL":
            for fids in sets:
                chosen = rng.sample(fids, len(fids))
                while sum(6 + FIELDS.get(fid, ("", 0, []))[1] for fid in chosen) > 4000:
                    chosen.pop()
                fields = [make.field(fid, some_field(rng, fid) if fid in FIELDS else b"free") for fid in chosen]
                parts.append(make.message(tid, letter, 0, 0, fields, make.DATE))
        captures.append(b"".join(parts))
    return captures


# ─── Messages ───


def flow(rng, series, date, count, first=1):
    """Messages of a series: number, TID, content, and its packets with their places."""
    out = []
    extension = bytes([5, 4]) + date.to_bytes(4, "big")
    for number in range(first, first + count):
        fields = [make.field(0x7001 + i, rng.randbytes(rng.randrange(40))) for i in range(rng.randrange(7))]
        pieces = max(1, rng.randrange(len(fields) + 1))
        cuts = sorted(rng.sample(range(1, len(fields)), pieces - 1)) if pieces > 1 else []
        parts = [fields[a:b] for a, b in zip([0] + cuts, cuts + [len(fields)])]
        letters = "S" if len(parts) == 1 else "F" + "C" * (len(parts) - 2) + "L"
        tid = rng.choice([0x7777, 0x7778])
        packets = [make.message(tid, letter, series, number, part, extension + make.place(i))
                   for i, (letter, part) in enumerate(zip(letters, parts))]
        out.append((number, tid, b"".join(fields), packets))
    return out


def joined(capture, options=("--messages", "-x")):
    """What --messages prints: (series, number, TID, content) of each message, the notes, and the status."""
    status, out, err = run(options, capture)
    need(err == "", err)
    found, notes = [], []
    for block in blocks_of(plain(out)):
        head = re.fullmatch(r"(\d+) message, (\d+) bytes of content, packets up to (\d+)", block[0])
        if not head:
            notes.append(block[0])
            continue
        tid = next(int(line.split()[1], 16) for line in block if line.startswith("    TID "))
        line = next(line for line in block if line.startswith("    series "))
        series, number = map(int, re.match(r"    series (\d+), number (\d+)", line).groups())
        content = bytes.fromhex("".join(line.split(":")[1] for line in block if line.startswith("    bytes ")))
        need(len(content) == int(head[2]), "bytes of content", head[2], len(content))
        found.append((series, number, tid, content))
    return found, notes, status


def mixed(rng, flows):
    """The packets of several flows on one line, those of each in their order: series, message's number and bytes."""
    queues = [[(s, n, p) for n, _, _, packets in messages for p in packets] for s, messages in flows.items()]
    line = []
    while any(queues):
        queue = rng.choice([q for q in queues if q])
        line.append(queue.pop(0))
    return line


def compare_joined(rng):
    whole = lost = 0
    for turn in range(60):
        chosen = rng.sample(range(1, 65536), rng.randrange(1, 10))
        flows = {s: flow(rng, s, 20040315, rng.randrange(1, 12), rng.choice([1, 1, 40])) for s in chosen}
        line = mixed(rng, flows)
        noise = [make.packet(0, make.ALIVE), make.packet(9, b"", b"other"), make.packet(1)]
        capture = b"".join(p + (rng.choice(noise) if rng.randrange(3) == 0 else b"") for _, _, p in line)
        right = {s: [(s, n, tid, content) for n, tid, content, _ in messages] for s, messages in flows.items()}
        found, notes, status = joined(capture)
        for s in flows:
            need([m for m in found if m[0] == s] == right[s], "joined, series", s, "turn", turn)
        need(status == 0 and len(notes) == len(flows) + 1, "joined: notes", notes, status)
        whole += len(found)
        # One packet is lost: its message is, and no other; where it is the last of its series nobody can know.
        at = rng.randrange(len(line))
        s, n, _ = line[at]
        found, notes, status = joined(b"".join(p for i, (_, _, p) in enumerate(line) if i != at))
        there = [m for t in flows for m in right[t] if (t, m[1]) != (s, n)]
        need(sorted(found) == sorted(there), "lost: series", s, "number", n, "turn", turn)
        lost += 1
        # Packets that come again: nothing is handed on twice.
        again = [p for _, _, p in line] + [p for _, _, p in line[: len(line) // 2]]
        found, notes, status = joined(b"".join(again))
        need(sorted(found) == sorted(m for t in flows for m in right[t]), "again, turn", turn)
        need(sum(note.endswith(": again") for note in notes) == len(line) // 2 and status == 0, "again: notes", notes)
    # Two days of a series: the numbers start anew.
    days = flow(rng, 5, 20040315, 4) + flow(rng, 5, 20040316, 3)
    found, notes, status = joined(b"".join(p for _, _, _, packets in days for p in packets))
    need([m[1] for m in found] == [1, 2, 3, 4, 1, 2, 3] and status == 0, "two days", notes)
    # More series than are joined, a chain that isn't whole at the end, numbers that are missing.
    found, notes, status = joined(b"".join(make.message(0x7777, "S", s, 1) for s in range(1, 70)))
    need(len(found) == 64 and status == 1 and any("not joined" in n for n in notes), "too many series", notes)
    found, notes, status = joined(make.message(0x7777, "F", 5, 9, [make.field(0x7001, b"a")]))
    need(found == [] and status == 1 and any("number 9: not whole, 1 packets" in n for n in notes), "not whole", notes)
    found, notes, status = joined(make.message(0x7777, "S", 5, 9) + make.message(0x7777, "S", 5, 12))
    need(len(found) == 2 and status == 1 and any("numbers 10 to 11: not there" in n for n in notes), "missing", notes)
    found, notes, status = joined(make.message(0x7777, "L", 5, 9) + make.message(0x7777, "S", 5, 10))
    need(len(found) == 1 and status == 1 and sum("refused 17" in n for n in notes) == 1, "broken", notes)
    # Numbers that can't be are refused, and start nothing; a chain that is broken twice is told twice.
    odd = [make.message(0x7777, "S", 5, number) for number in (0, 4294967295, 1000001, 3, 0, 4, 1000001)]
    found, notes, status = joined(b"".join(odd))
    need([m[1] for m in found] == [3, 4] and sum("refused 16" in n for n in notes) == 5 and status == 1, "odd", notes)
    chain = [make.message(0x7777, letter, 5, 7, (), make.place(i)) for i, letter in enumerate("FCL")]
    found, notes, status = joined(b"".join(chain[:1] + chain[2:] + chain[:1] + chain[2:] + chain))
    need([m[1] for m in found] == [7] and sum("refused 17" in n for n in notes) == 2, "broken twice", notes)
    # A chain is never joined with one of a later number.
    two = make.message(0x7777, "F", 5, 7, (), make.place(0)) + make.message(0x7777, "L", 5, 9, (), make.place(1))
    found, notes, status = joined(two)
    need(found == [] and sum("refused 17" in n for n in notes) == 1 and status == 1, "two chains", notes)
    # A later date that comes by itself starts a day, an earlier one is refused.
    pairs = ((1, 7), (2, 7), (1, 9), (3, 7), (2, 9))
    dates = [make.message(0x7777, "S", 5, n, (), bytes([5, 4, 0, 0, 0, d])) for n, d in pairs]
    found, notes, status = joined(b"".join(dates))
    need([m[1] for m in found] == [1, 2, 1, 2] and sum("refused 15" in n for n in notes) == 1, "dates", notes)
    # Logins and other packets without a series stay packets; with filters the rest is left out.
    login = make.message(0x16, "S", 0, 0, [make.field(0x23, some_field(rng, 0x23))], make.DATE)
    found, notes, status = joined(login + make.packet(0, make.ALIVE) + make.message(0x7777, "S", 6, 1))
    need(len(found) == 1 and status == 0 and notes[0].startswith("0 message, type 1, "), "login", notes)
    dates.append(make.message(0x7777, "S", 6, 1))
    found, notes, status = joined(b"".join(dates), ["--messages", "-x", "--series", "6"])
    need([m[0] for m in found] == [6] and len(notes) == 2 and status == 1, "joined with --series", notes)
    print("joined: %d messages, %d captures with a packet lost" % (whole, lost))


# ─── Filters, pipes, statuses ───


def compare_options(captures):
    everything = b"".join(typed(random.Random("filters"))[:5] + [make.SAMPLE[:-16]])
    blocks = blocks_of(plain(run([], everything)[1]))

    def shown(options):
        return blocks_of(plain(run(options, everything)[1]))

    def of(block, words):
        return any(re.search(words, line) for line in block)

    need(shown(["--series", "3"]) == [b for b in blocks if of(b, "^    series 3,")] + blocks[-1:], "--series")
    need(shown(["--tid", "0x1001"]) == [b for b in blocks if of(b, "^    TID 0x00001001 ")] + blocks[-1:], "--tid")
    for tid in ("TradeInsertSingle", "4097", "TID_TradeInsertSingle"):
        need(shown(["--tid", tid]) == shown(["--tid", "0x1001"]), "--tid", tid)
    need(shown(["--refused"]) == [b for b in blocks if of(b, "refused")] and shown(["--refused"]), "--refused")
    both = [b for b in blocks if of(b, "refused") and of(b, "^    series 2,")]
    need(shown(["--refused", "--series", "2"]) == both and both, "two filters")
    # The bytes of all blocks are those of the capture.
    text = run(["-x"], everything)[1]
    rows = re.findall(r"^    bytes (\d+):((?: [0-9A-F]{2})+)$", text, re.M)
    need(b"".join(bytes.fromhex(row) for _, row in rows) == everything, "-x")
    at = 0
    for place, row in rows:
        need(int(place) == at, "-x: offset", place)
        at += len(bytes.fromhex(row))
    rest = [line for line in text.split("\n") if not line.startswith("    bytes ")]
    need(rest == run([], everything)[1].split("\n"), "-x: the rest")
    # In pieces through a pipe, and a long one: 4 MB.
    rng = random.Random("pipe")
    for capture in [everything] + captures[:20] + [b"".join(make.some_packet(rng) for _ in range(2000)) * 20]:
        right = run([], capture)
        with tempfile.TemporaryFile() as out:
            with subprocess.Popen([program], stdin=subprocess.PIPE, stdout=out) as pipe:
                at, most = 0, 7 if len(capture) < 3000 else 90000
                while at < len(capture):
                    size = rng.randrange(1, most)
                    pipe.stdin.write(capture[at : at + size])
                    pipe.stdin.flush()
                    at += size
                pipe.stdin.close()
            out.seek(0)
            need(out.read().decode() == right[1] and pipe.returncode == right[0], "through a pipe")
    # Statuses.
    good = make.packet(0, make.ALIVE) + make.message(0x7777, "S", 1, 1)
    for options, capture, status, words in [
        ([], good, 0, ""), ([], b"", 0, ""), ([], good[:-1], 1, ""), ([], good + bytes([1, 200, 0, 0]), 1, ""),
        ([], make.message(0x2003, "S", 1, 1), 1, ""), (["--series", "9"], make.message(0x2003, "S", 1, 1), 1, ""),
        (["--help"], b"", 0, ""), (["--nothing"], b"", 2, "no such option"), (["--series"], b"", 2, "missing"),
        (["--series", "65536"], b"", 2, "65535"), (["--series", "-1"], b"", 2, "65535"),
        (["--tid", "Nothing"], b"", 2, "Appendix A"), (["--tid", "0x100000000"], b"", 2, "Appendix A"),
        (["--tid", ""], b"", 2, "Appendix A"), (["-xx"], b"", 2, "no such option"),
        (["/there/is/none"], b"", 1, "can't be opened"), ([str(root)], b"", 1, "can't be read"),
        (["--", "-x"], b"", 1, "can't be opened"), (["-"], good, 0, ""),
    ]:
        found, out, err = run(options, capture)
        need(found == status and words in err and (words != "") == (err != ""), "status of", options, found, err[:80])
        need(status != 2 or ("usage:" in err and out == ""), "usage", options)
    need("usage:" in run(["--help"])[1], "--help")
    print("options: ok" if not wrong else "options: see above")


# ─── Planted differences ───


def planted():
    """Each changed byte of a capture that is printed is found, and each changed word of what is printed."""
    rng = random.Random("planted")
    capture = make.small() + typed(rng)[1]
    there, unseen = expected(capture), set()
    for block in there:  # bytes of skipped packets aren't printed without -x
        skipped = re.match(r"(\d+) skipped, type \d+, (\d+) bytes", block[0])
        if skipped:
            unseen |= set(range(int(skipped[1]) + 4, int(skipped[1]) + int(skipped[2])))
    places = [i for i in range(len(make.small()) + 60) if i not in unseen]
    changed = [capture[:i] + bytes([capture[i] ^ 1]) + capture[i + 1 :] for i in places]
    missed = [i for i, blocks in zip(places, dumped(changed)) if blocks == there]
    need(not missed, "changed bytes that weren't found:", missed)
    here = dumped([capture])[0]
    need(here == there, "before planting")
    words = tried = 0
    for b, block in enumerate(here):
        for n, line in enumerate(block):
            for m in re.finditer(r"\w+", line):
                other_line = line[: m.end()] + "1" + line[m.end() :]
                other = here[:b] + [block[:n] + [other_line] + block[n + 1 :]] + here[b + 1 :]
                tried += 1
                words += first_difference(other, there) is not None
    need(words == tried, "changed words: found", words, "of", tried)
    for other in (here[1:], here[:-1], here[:3] + here[4:]):
        need(first_difference(other, there) is not None, "a block missing")
    missing = len(missed) + tried - words
    print("planted: %d changed bytes and %d changed words, %d not found" % (len(places), tried, missing))


def main():
    if not os.path.exists(program):
        print(program, "isn't there: make tools")
        return 1
    sample = (root / "samples" / "capture.bin").read_bytes()
    compare("samples/capture.bin", [sample])
    all_captures = []
    for path in sorted((root / "crates" / "captures" / "data").iterdir()):
        captures = records(path)
        compare(path.name, captures)
        all_captures += captures
    rng = random.Random("dump")
    for turn in range(4):
        compare("fields, %d" % turn, typed(rng))
        compare("messages, %d" % turn, messages(rng))
    compare_joined(rng)
    compare_options(all_captures)
    planted()
    print("dump: %d things wrong" % wrong)
    return 1 if wrong else 0


if __name__ == "__main__":
    sys.exit(main())
