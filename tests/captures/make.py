#!/usr/bin/env python3
"""Writes captures of FTD packets, each with the listing that it should have.

The reader and the lister below are written from the paper alone (Packet, Message packet, rows 1 to 7 of the refusal table, Lister)
and share nothing with the Rattle code. The files are the same on each run.

    make.py            write the files
    make.py --check    say which files are not as they would be written
"""
import os
import random
import sys

ROOT = os.path.dirname(os.path.dirname(os.path.dirname(os.path.abspath(__file__))))
MOST = 65536  # bytes that the lister reads
KNOWN = {0x00: 0, 0x01: 4, 0x02: 1, 0x03: 1, 0x04: 0, 0x05: 4, 0x06: 2, 0x70: 2}  # tags and the lengths of their data
ONCE = (0x05, 0x70)  # tags that stand at most once: the trade date, the packet's place


# ─── The reader ───


def number(data):
    """An unsigned number, high byte first."""
    return int.from_bytes(data, "big")


def tags_of(extension):
    """The tags, as pairs of kind and data; None where they don't end with the extension."""
    tags = []
    while extension:
        if len(extension) < 2 or len(extension) - 2 < extension[1]:
            return None
        tags.append((extension[0], extension[2 : 2 + extension[1]]))
        extension = extension[2 + extension[1] :]
    return tags


def broken(tags):
    """Refusal 2."""
    if tags is None:
        return True
    if any(kind in KNOWN and KNOWN[kind] != len(data) for kind, data in tags):
        return True
    return any([kind for kind, _ in tags].count(one) > 1 for one in ONCE)


def fields_of(content):
    """How many fields the content is; None where it is not whole fields."""
    count = 0
    while content:
        if len(content) < 6 or len(content) - 6 < number(content[4:6]):
            return None
        content = content[6 + number(content[4:6]) :]
        count += 1
    return count


def refusal_of(body):
    """Refusals 4 to 7 of a message packet's body; 0 where there is none."""
    if body[0] != 1:
        return 4
    if body[5:6] not in (b"S", b"F", b"C", b"L"):
        return 5
    if number(body[14:16]) != len(body) - 16:
        return 6
    if fields_of(body[16:]) != number(body[12:14]):
        return 7
    return 0


def read(data):
    """The words of the line for the packet at the front, and how many bytes it takes; 0 bytes for a last line."""
    if len(data) < 4:
        return ["short"], 0
    kind, room, length = data[0], data[1], number(data[2:4])
    if room > 127:
        return ["refused", "1"], 0
    if kind == 0x01 and (0 < length < 16 or length > 4096):
        return ["refused", "3"], 0
    size = 4 + room + length
    if len(data) < size:
        return ["short"], 0
    extension, body = data[4 : 4 + room], data[4 + room : size]
    if kind > 0x01 or (kind == 0x00 and length > 0):
        return ["skip"], size
    tags = tags_of(extension)
    if broken(tags):
        return ["refused", "2"], 0
    if length == 0:
        alive = kind == 0x00 and any(k == 0x04 for k, _ in tags)
        return ["heart" if alive else "link"], size
    if refusal_of(body):
        return ["refused", str(refusal_of(body))], 0
    values = [number(body[6:8]), number(body[8:12]), number(body[12:14])]
    return ["msg", "%08X" % number(body[1:5]), chr(body[5])] + [str(v) for v in values], size


# ─── The lister ───


def line(at, words):
    return ("\t".join([str(at)] + words) + "\n").encode("ascii")


def listing(capture):
    """All lines of a capture."""
    if len(capture) > MOST:
        return line(0, ["long"])
    text, at = b"", 0
    while at < len(capture):
        words, size = read(capture[at:])
        text += line(at, words)
        if size == 0:
            return text
        at += size
    return text + line(at, ["end"])


# ─── Packets ───


def packet(kind, extension=b"", body=b""):
    return bytes([kind, len(extension)]) + len(body).to_bytes(2, "big") + extension + body


def field(fid, data):
    return fid.to_bytes(4, "big") + len(data).to_bytes(2, "big") + data


def message(tid, chain, series, serial, fields=(), extension=b""):
    content = b"".join(fields)
    head = bytes([1]) + tid.to_bytes(4, "big") + chain.encode() + series.to_bytes(2, "big") + serial.to_bytes(4, "big")
    head += len(fields).to_bytes(2, "big") + len(content).to_bytes(2, "big")
    return packet(1, extension, head + content)


ALIVE = bytes([0x04, 0])
DATE = bytes([0x05, 4]) + (20040315).to_bytes(4, "big")
UNKNOWN = bytes([0x77, 3, 1, 2, 3])


def place(at, length=2):
    """A packet's place in its message, tag 0x70; of another length it is wrong."""
    return bytes([0x70, length]) + at.to_bytes(length, "big")


# Each kind of line that one run can show.
SAMPLE = b"".join(
    [
        packet(0, ALIVE),
        packet(0),
        packet(0, UNKNOWN + ALIVE),
        packet(1),
        packet(1, ALIVE),
        packet(0, ALIVE, b"body"),
        packet(2, b"\x00\x01", b"other type"),
        packet(255),
        message(0x2004, "S", 1, 1),
        message(0x1001, "F", 2, 7, [field(0x0001, b"first"), field(0x0002, b"")], DATE + place(0)),
        message(0x1001, "C", 2, 7, [field(0x0003, b"middle" * 40)], DATE + place(1)),
        message(0x1001, "L", 2, 7, [field(0x0004, b"last")], DATE + UNKNOWN),
        message(0xFEDCBA98, "S", 65535, 4294967295, [field(0xABCDEF01, b"")] * 12, UNKNOWN),
        packet(1, DATE + DATE),
    ]
)

# The paper's example.
PAPER = bytes.fromhex("000200000400 0100001001000020045300010000000100000000")


def some_bytes(rng, most):
    return bytes(rng.randrange(256) for _ in range(rng.randrange(most + 1)))


def some_extension(rng):
    """Whole tags, of which each kind stands at most once."""
    extension = b""
    kinds = [0x00, 0x01, 0x02, 0x03, 0x04, 0x05, 0x06, 0x20, 0x70, 0xFF]
    for kind in rng.sample(kinds, rng.randrange(4)):
        data = bytes(rng.randrange(256) for _ in range(KNOWN.get(kind, rng.randrange(20))))
        extension += bytes([kind, len(data)]) + data
    return extension


def some_packet(rng):
    """A packet that is listed, of any kind."""
    kind = rng.randrange(8)
    if kind == 0:
        return packet(0, some_extension(rng))
    if kind == 1:
        return packet(1, some_extension(rng))
    if kind == 2:
        return packet(0, some_bytes(rng, 127), b"\x00" + some_bytes(rng, 60))
    if kind == 3:
        return packet(rng.randrange(2, 256), some_bytes(rng, 127), some_bytes(rng, 60))
    fields = [field(rng.randrange(2**32), some_bytes(rng, 30)) for _ in range(rng.randrange(6))]
    return message(rng.randrange(2**32), rng.choice("SFCL"), rng.randrange(2**16), rng.randrange(2**32), fields, some_extension(rng))


# ─── The files ───


def placed():
    """A long message, each packet with its place, and what else may stand in packets with one."""
    parts = [message(0x1001, "FCCL"[i], 2, 7, [field(i, b"piece")], DATE + place(i)) for i in range(4)]
    # Any number, any order of the tags, none at all: the lister compares nothing.
    parts += [message(0x1001, "C", 2, 7, (), place(65535) + DATE), message(0x1001, "L", 2, 7), message(0x1001, "S", 2, 8, (), place(1))]
    parts += [packet(0, place(0)), packet(1, ALIVE + place(9)), packet(0, place(3) + ALIVE)]
    # Its neighbours are unknown tags; in skipped packets it is any bytes.
    parts += [packet(1, bytes([0x6F, 0, 0x71, 1, 5, 0x71, 0])), packet(2, place(1) * 2), packet(0, place(1, 3), b"body")]
    return b"".join(parts)


def misplaced():
    """Tag 0x70 with another length, cut off, or twice: behind right packets, in message and in link packets."""
    wrong = [place(0, n) for n in (0, 1, 3, 4, 8)] + [place(1)[:n] for n in (1, 2, 3)]
    wrong += [place(1) * 2, place(0) + DATE + place(1), place(2) + UNKNOWN + ALIVE + place(2)]
    wrong += [DATE + one for one in wrong]
    captures = []
    for one in wrong:
        for last in (message(0x1001, "C", 2, 7, [field(3, b"piece")], one), packet(0, one), packet(1, one)):
            captures.append(packet(0, ALIVE) + packet(7, one) + last + packet(1))
    assert all(listing(capture).endswith(b"refused\t2\n") for capture in captures)
    return captures


def valid(rng):
    """The paper's example, packets of the largest sizes, packets with their place, and captures of many packets."""
    captures = [PAPER, SAMPLE, placed()]
    captures.append(message(0x2001, "S", 3, 9, [field(1, bytes(4074))]) + packet(0, ALIVE))
    captures.append(message(0x2001, "L", 3, 10, [field(2, b"")] * 680, bytes([0x80, 125]) + bytes(125)))
    captures.append(packet(9, bytes(127), bytes(60000)) + packet(1, DATE))
    for _ in range(40):
        captures.append(b"".join(some_packet(rng) for _ in range(rng.randrange(1, 31))))
    return captures


def small():
    """A capture of some two hundred bytes with each kind of packet."""
    parts = [packet(0, UNKNOWN + ALIVE), packet(1, DATE), packet(0, b"\x04", b"abc"), packet(7, b"", b"de")]
    parts += [message(0x2004, "S", 1, 1), message(0x1001, "F", 2, 7, [field(1, b"ab"), field(2, b"")], DATE + place(0))]
    parts += [message(0x1001, "C", 2, 7, [field(3, b"a field of the middle")], bytes([0x06, 2, 0, 1]) + DATE)]
    parts += [message(0x1001, "L", 2, 7, [field(4, b"the last field")], DATE), packet(1, UNKNOWN), packet(0, ALIVE)]
    return b"".join(parts)


def damaged(_):
    """Wrong places; and each byte of the small capture changed, to a few values."""
    capture = small()
    captures = misplaced()
    for i, byte in enumerate(capture):
        values = {0, 4, 255, byte ^ 1, (byte + 1) % 256} - {byte}
        captures += [capture[:i] + bytes([v]) + capture[i + 1 :] for v in sorted(values)]
    return captures


def cut(_):
    """The small capture, cut at every place."""
    return [small()[:i] for i in range(len(small()) + 1)]


def exactly(rng, size):
    """Packets of that many bytes in all."""
    capture = b""
    while len(capture) < size - 400:
        capture += some_packet(rng)
    return capture + packet(3, b"", bytes(size - len(capture) - 4))


def full(rng):
    """Exactly as many bytes as the lister reads: whole packets, and a last packet with a byte missing."""
    whole = exactly(rng, MOST)
    return [whole, exactly(rng, MOST + 1)[:MOST]]


def more(rng):
    """More bytes than the lister reads: one, and many."""
    return [exactly(rng, MOST + 1), packet(1, b"\x01") + bytes(MOST + 5000)]


def records(captures):
    parts = []
    for capture in captures:
        text = listing(capture)
        assert len(text) <= MOST and len(capture) <= 2 * MOST
        parts.append(len(capture).to_bytes(4, "big") + len(text).to_bytes(4, "big") + capture + text)
    return b"".join(parts)


def files():
    """What is to be written, by path."""
    kinds = {"valid": valid, "damaged": damaged, "cut": cut, "empty": lambda _: [b""], "full": full, "more": more}
    out, counts = {}, b""
    for name, make in kinds.items():
        captures = make(random.Random("captures " + name))
        out["crates/captures/data/" + name] = records(captures)
        counts += b"%s %d 0\n" % (name.encode(), len(captures))
    out["crates/captures/stdout"] = counts
    out["crates/ftdlist/stdin"] = SAMPLE
    out["crates/ftdlist/stdout"] = listing(SAMPLE)
    out["samples/capture.bin"] = SAMPLE
    return out


def main():
    check = sys.argv[1:] == ["--check"]
    wrong = 0
    for path, data in files().items():
        place = os.path.join(ROOT, path)
        if check:
            if not os.path.exists(place) or open(place, "rb").read() != data:
                print("differs:", path)
                wrong += 1
        else:
            os.makedirs(os.path.dirname(place), exist_ok=True)
            with open(place, "wb") as file:
                file.write(data)
    sys.exit(1 if wrong else 0)


if __name__ == "__main__":
    main()
