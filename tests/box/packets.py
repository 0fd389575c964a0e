"""Packets as the test sees them, written from the rules of include/ftd.h and sharing nothing with the library.

A packet: type (1 byte), length of the extension (1), length of the body (2), extension, body. A message packet is one
of type 1 with a body: version (1), TID (4), chain letter (1), series (2), number (4), fields (2), length of the content
(2), content. All numbers have their high byte first.
"""

LOGIN = 0x0016  # TID of login packets and their answers
START_FIELD = 0x0004  # FID of the start field: series and the next number wanted
MOST_CONTENT = 32768  # content bytes of a message
MOST_FIELD = 4074  # bytes of a data field
HEARTBEAT = bytes([0, 2, 0, 0, 4, 0])


def number(data):
    return int.from_bytes(data, "big")


def said_length(data, at=0):
    """How many bytes the packet that starts there takes; 0 where fewer than four are there."""
    if len(data) - at < 4:
        return 0
    return 4 + data[at + 1] + (data[at + 2] << 8 | data[at + 3])


class Packet:
    """A whole packet. kind: 'message', 'link' or 'other'."""

    __slots__ = ("bytes", "kind", "tid", "chain", "series", "number", "content", "date", "place")

    def __init__(self, data):
        self.bytes = data
        self.kind = "other"
        self.tid = self.chain = self.series = self.number = self.date = self.place = None
        self.content = b""
        room = data[1]
        body = data[4 + room :]
        if data[0] > 1 or (data[0] == 0 and body):
            return
        extension = data[4 : 4 + room]
        at = 0
        while at + 2 <= len(extension):
            tag, length = extension[at], extension[at + 1]
            value = extension[at + 2 : at + 2 + length]
            if tag == 0x05 and len(value) == 4:
                self.date = number(value)
            elif tag == 0x70 and len(value) == 2:
                self.place = number(value)
            at += 2 + length
        if not body:
            self.kind = "link"
            return
        if len(body) < 16:
            return
        self.kind = "message"
        self.tid = number(body[1:5])
        self.chain = chr(body[5])
        self.series = number(body[6:8])
        self.number = number(body[8:12])
        self.content = body[16:]

    def start(self):
        """Series and number of the start field of a login packet; None where it has none."""
        at, content = 0, self.content
        while at + 6 <= len(content):
            length = number(content[at + 4 : at + 6])
            if number(content[at : at + 4]) == START_FIELD and length == 6:
                return number(content[at + 6 : at + 8]), number(content[at + 8 : at + 12])
            at += 6 + length
        return None

    def is_login(self):
        """A login packet, or the answer to one: its series is 0. (A flow may have messages with that TID.)"""
        return self.kind == "message" and self.tid == LOGIN and self.series == 0

    def __str__(self):
        if self.kind != "message":
            return f"{self.kind} packet of {len(self.bytes)} bytes"
        if self.is_login():
            return "login packet or answer"
        return f"{self.chain} packet of series {self.series} number {self.number} place {self.place}"


def split(buffer):
    """Takes the whole packets off the front of a bytearray."""
    at, packets = 0, []
    while True:
        length = said_length(buffer, at)
        if length == 0 or len(buffer) - at < length:
            break
        packets.append(Packet(bytes(buffer[at : at + length])))
        at += length
    if at:
        del buffer[:at]
    return packets


def field(fid, data):
    return fid.to_bytes(4, "big") + len(data).to_bytes(2, "big") + data


def request_content():
    """A ReqUserLoginField: flag, texts of 8, 15, 40, 5, 20 and 8 bytes, a number of 3, a text of 20."""
    return field(0x0023, b"\x01" + b" " * 96 + b"030" + b" " * 20)


def login_packet(series, wanted, date=None):
    """The login packet of a series for the number wanted; with the trade date of the end's day, where it has one."""
    start = field(START_FIELD, series.to_bytes(2, "big") + wanted.to_bytes(4, "big"))
    content = request_content() + start
    body = b"\x01" + LOGIN.to_bytes(4, "big") + b"S" + bytes(6) + (2).to_bytes(2, "big")
    body += len(content).to_bytes(2, "big") + content
    extension = b"" if date is None else b"\x05\x04" + date.to_bytes(4, "big")
    return bytes([1, len(extension)]) + len(body).to_bytes(2, "big") + extension + body


def answer_content():
    """An RspUserLoginField: flag, texts of 8, 15, 40 and 20 bytes, a number of 3, texts of 20 and 24."""
    return field(0x0027, b"\x01" + b" " * 83 + b"000" + b" " * 44)


def answer_packet(date):
    """An answer to a login."""
    content = answer_content()
    body = b"\x01" + LOGIN.to_bytes(4, "big") + b"S" + bytes(6) + (1).to_bytes(2, "big")
    body += len(content).to_bytes(2, "big") + content
    return b"\x01\x06" + len(body).to_bytes(2, "big") + b"\x05\x04" + date.to_bytes(4, "big") + body


def message_packet(series, date, at, tid, content):
    """A message of one packet (chain letter S), as a serving end writes it; the content is one field."""
    body = b"\x01" + tid.to_bytes(4, "big") + b"S" + series.to_bytes(2, "big") + at.to_bytes(4, "big")
    body += (1).to_bytes(2, "big") + len(content).to_bytes(2, "big") + content
    extension = b"\x05\x04" + date.to_bytes(4, "big") + b"\x70\x02\x00\x00"
    return bytes([1, len(extension)]) + len(body).to_bytes(2, "big") + extension + body


# ---- Contents of messages ----

BULLETINS = {1: 0x1002, 2: 0x2003}  # ParticipantBulletin of the private series, MarketBulletin of the broadcast one


def text(value, width):
    return value.encode()[:width].ljust(width)


def bulletin_field(words):
    """A BulletinField: texts of 3, a flag, texts of 8, 80, 20, 10, 500 and 200 bytes."""
    parts = [text("001", 3), b"\x00", text("09:15:00", 8), text(words, 80), text("exchange", 20)]
    return field(0x0001, b"".join(parts) + text("", 10) + text("", 500) + text("", 200))


def free_fields(random, room):
    """Fields with FIDs that the standard doesn't have, of any bytes, that take so many bytes together."""
    fields = []
    style = random.choice((60, 700, MOST_FIELD))
    while room >= 6:
        length = min(random.randint(0, style), room - 6, MOST_FIELD)
        if 0 < room - 6 - length < 6:  # the rest would be too small for a field
            length = room - 6 if room - 6 <= MOST_FIELD else length - 6
        fields.append(field(random.randint(0x7001, 0x70FF), random.randbytes(length)))
        room -= 6 + length
    return b"".join(fields)


def make_message(random, series, long_share):
    """TID and content of a message: none, few, some or many bytes, up to the 32768 that a message may have."""
    if random.random() < 0.03:  # a message of the flow that looks like the answer to a login
        return LOGIN, answer_content() + free_fields(random, random.choice((0, 100, 6000)))
    at = random.random()
    if at < long_share:
        room = random.choice((MOST_CONTENT, random.randint(4081, MOST_CONTENT), random.randint(8000, 16000)))
    elif at < long_share + 0.1:
        room = random.choice((0, 6, 7, 4080, 4079, 4074))
    elif at < long_share + 0.2:
        room = random.randint(400, 4080)
    else:
        room = random.randint(6, 400)
    if room >= 900 and random.random() < 0.3:
        first = bulletin_field(f"bulletin {random.randint(1, 999999)}")
        return BULLETINS.get(series, 0x7777), first + free_fields(random, room - len(first))
    return random.choice((0x7777, 0x7778, 0x01020304)), free_fields(random, room)
