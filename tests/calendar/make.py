#!/usr/bin/env python3
"""Makes the files that the program calendarcheck compares (crates/calendarcheck/data), and what it prints where nothing
differs, with dates, weekdays and China time of Python's datetime. --check says whether they are as it would make them."""
import datetime
import pathlib
import random
import struct
import sys

DATA = pathlib.Path(__file__).resolve().parents[2] / "crates" / "calendarcheck" / "data"
CHINA = datetime.timezone(datetime.timedelta(hours=8))
EPOCH = datetime.date(1970, 1, 1)
DAY = datetime.timedelta(days=1)


def number(date):
    return date.year * 10000 + date.month * 100 + date.day


def is_real(n):
    try:
        return datetime.date(n // 10000, n // 100 % 100, n % 100).year >= 1601
    except ValueError:
        return False


def china(t):
    """Date and second of the day of a time, in China."""
    at = datetime.datetime(1970, 1, 1, tzinfo=datetime.timezone.utc) + datetime.timedelta(seconds=t)
    at = at.astimezone(CHINA)
    return at.date(), at.hour * 3600 + at.minute * 60 + at.second


def set_answer(sessions, holidays):
    """0, or the refusal. Sessions are triples."""
    if len(sessions) > 8:
        return 26
    for i, (first, last, _) in enumerate(sessions):
        if first >= last or last > 86400:
            return 26
        if any(max(first, f) < min(last, l) for f, l, _ in sessions[:i]):
            return 26
    if len(holidays) > 32 or not all(is_real(h) for h in holidays):
        return 27
    return 0


def ask(sessions, holidays, t):
    date, second = china(t)
    off = set(holidays)

    def trades(d):
        return d.weekday() < 5 and number(d) not in off

    inside = [late for first, last, late in sessions if first <= second < last]
    if not inside or not trades(date):
        return 0
    if inside[0]:
        date += DAY
        while not trades(date):
            date += DAY
    return number(date)


def record(letter, x, y):
    return struct.pack(">cII", letter.encode(), x, y)


def set_record(sessions, holidays):
    flat = [n for s in sessions for n in s]
    numbers = flat + list(holidays) + [set_answer(sessions, holidays)]
    return record("S", len(flat), len(holidays)) + struct.pack(f">{len(numbers)}I", *numbers)


def items():
    out = []
    for letter, texts in (
        ("W", "20230229 19000229 21000229 20230431 20230631 20230931 20231131 16001231 00000101 20230132 20230100"
              " 20231301 20230001 00000000 -2023022 15821015 10000101"),
        ("V", "20240229 20000229 20230430 16010101 99991231"),
    ):
        for text in texts.split():
            out.append(letter.encode() + text.encode())
    out += [b"W2023022 ", b"V        ", b"W       1", b"W 0230101"]
    # Every month's days 0 to 32, in years around the borders.
    for year in (0, 1, 1600, 1601, 1604, 1700, 1899, 1900, 2000, 2023, 2024, 2100, 2400, 9996, 9999):
        for month in range(0, 14):
            for day in range(0, 33):
                n = year * 10000 + month * 100 + day
                out.append((b"V" if is_real(n) else b"W") + b"%08d" % n)
    return out


def days():
    out = []
    date = EPOCH
    for n in range((datetime.date(2106, 12, 31) - EPOCH).days + 1):
        out.append(record("D", n, number(date)))
        date += DAY
    return out


EVENING = [(75600, 86400, 1), (32400, 36900, 0), (37800, 41400, 0), (48600, 54000, 0)]
FESTIVAL = [20240101, 20240212, 20240213, 20240214, 20240215, 20240216, 20240404, 20240405]
LONGEST = [number(d) for d in (datetime.date(2024, 1, 4) + i * DAY for i in range(44)) if d.weekday() < 5]


def examples():
    """The worked examples; each answer that the paper gives is held against the reckoning here."""
    out = []

    def sets(answer, sessions, holidays):
        assert set_answer(sessions, holidays) == answer, (sessions, holidays)
        out.append(set_record(sessions, holidays))

    def asks(sessions, holidays, pairs):
        sets(0, sessions, holidays)
        for t, answer in pairs:
            assert ask(sessions, holidays, t) == answer, (t, answer)
            out.append(record("A", t, answer))

    assert len(LONGEST) == 32
    touching = [(100 * i, 100 * i + 100, 0) for i in range(9)]
    for sessions in ([], touching[:8], [(100, 200, 0), (0, 100, 0)], [(86399, 86400, 0)]):
        sets(0, sessions, [])
    for holidays in (LONGEST, [20240101] * 32, [20240106], [20240229, 16010101, 99991231]):
        sets(0, [], holidays)
    for sessions in (
        touching, [(0, 100, 0), (99, 200, 0)], [(100, 200, 0), (0, 101, 1)], [(0, 86400, 0), (100, 200, 0)],
        [(100, 200, 0)] * 2, [(0, 100, 0), (200, 300, 0), (50, 150, 0)], [(100, 100, 0)], [(75600, 9000, 1)],
        [(86399, 86401, 0)], [(86400, 86401, 0)],
    ):
        sets(26, sessions, [])
    for holidays in (
        LONGEST + [20240219], [20240101] * 33, [20230229], [21000229], [16001231], [0], [20240100], [20241301],
        [100000101],
    ):
        sets(27, [], holidays)
    sets(26, [(100, 100, 0)], [20230229])
    sets(26, touching, [20240101] * 33)
    # A refused Set leaves the calendar.
    asks(EVENING, FESTIVAL, [(1707397200, 20240209)])
    sets(26, [(100, 100, 0)], [])
    sets(27, [], [0])
    out.append(record("A", 1707397200, 20240209))
    # Numbers that are no whole sessions.
    for flat in ([0, 100], [0, 100, 0, 5], [1] * 26):
        out.append(record("S", len(flat), 0) + struct.pack(f">{len(flat) + 1}I", *flat, 26))
    out.append(record("A", 1707397200, 20240209))
    asks(EVENING, FESTIVAL, [
        (1707397200, 20240209), (1707397199, 0), (1707483600, 20240219), (1707494399, 20240219), (1707494400, 0),
        (1707699600, 0), (1708088400, 0), (1708261200, 0), (1708304399, 0), (1708304400, 20240219),
        (1708308899, 20240219), (1708308900, 0), (1712152800, 20240408), (1703858400, 20240102), (0, 0),
        (3600, 19700101), (520560000, 0), (520563600, 19860701), (4294818000, 21060208), (4294967295, 0),
    ])
    asks([(0, 86400, 1)], LONGEST, [(1704254400, 20240219)])
    asks([(0, 86400, 1)], [20240106, 20240108, 20240109], [(1704384000, 20240110)])
    asks([(0, 86400, 0)], [], [(0, 19700101), (1704470399, 20240105), (1704470400, 0), (1709179200, 20240229)])
    asks([(0, 25200, 0)], [], [(4294940399, 0)])
    asks([(0, 9000, 1), (75600, 86400, 1)], [], [(1704733200, 20240110)])
    asks([(0, 9000, 0), (75600, 86400, 1)], [], [(1704474000, 0), (1704646800, 20240108)])
    # A late number other than 1; the calendar with nothing in it.
    asks([(0, 86400, 4294967295)], [], [(1704384000, 20240108)])
    asks([], [], [(1704384000, 0)])
    return out


def marks():
    r = random.Random(7)
    known = [
        (0, 19700101), (57599, 19700101), (57600, 19700102), (951753599, 20000228), (951753600, 20000229),
        (951839999, 20000229), (951840000, 20000301), (1704038399, 20231231), (1704038400, 20240101),
        (1709136000, 20240229), (2147483647, 20380119), (2147483648, 20380119), (4107513599, 21000228),
        (4107513600, 21000301), (4294938495, 21060207), (4294938496, 21060207), (4294967295, 21060207),
    ]
    for mark, date in known:
        assert number(china(mark)[0]) == date, mark
    times = [mark for mark, _ in known] + [r.getrandbits(32) for _ in range(3000)]
    for _ in range(1000):
        midnight = r.randrange(1, 49711) * 86400 - 28800
        times += [midnight - 1, midnight]
    return [record("M", t, number(china(t)[0])) for t in times]


def random_calendar(r):
    """Sessions that do not overlap, in any order, and holidays; some in runs of days."""
    borders = sorted(r.sample(range(0, 86401), 2 * r.randrange(1, 9)))
    if r.random() < 0.3:
        borders[0], borders[-1] = 0, 86400
    sessions = [(a, b, r.randrange(2)) for a, b in zip(borders[::2], borders[1::2])]
    r.shuffle(sessions)
    start = EPOCH + r.randrange(0, 49700) * DAY
    holidays = []
    if r.random() < 0.5:
        holidays = [number(d) for d in (start + i * DAY for i in range(60)) if d.weekday() < 5][: r.randrange(33)]
    while len(holidays) < 32 and r.random() < 0.9:
        holidays.append(number(start + r.randrange(-10, 30) * DAY if start.year > 1970 else start))
    r.shuffle(holidays)
    return sessions, holidays, (start - EPOCH).days


def times():
    """100,000 times: around the holidays at sessions' borders, at midnight, and anywhere."""
    r = random.Random(2024)
    out = []
    for _ in range(200):
        sessions, holidays, start = random_calendar(r)
        out.append(set_record(sessions, holidays))
        for _ in range(500):
            day = start + r.randrange(-20, 70)
            kind = r.randrange(4)
            if kind == 0:
                t = r.getrandbits(32)
            elif kind == 1:
                t = day * 86400 - 28800 + r.choice((-1, 0, 1))
            else:
                s = r.choice(sessions)
                t = day * 86400 - 28800 + r.choice((s[0] - 1, s[0], s[1] - 1, s[1], r.randrange(s[0], s[1])))
            t = min(max(t, 0), 4294967295)
            out.append(record("A", t, ask(sessions, holidays, t)))
    return out


def main():
    files = {}
    lines = ""
    for make in (items, examples, days, marks, times):
        records = make()
        files[DATA / make.__name__] = b"".join(records)
        lines += f"{make.__name__} {len(records)} 0\n"
    files[DATA.parent / "stdout"] = lines.encode()
    if "--check" in sys.argv:
        wrong = [path.name for path, content in files.items() if path.read_bytes() != content]
        if wrong:
            sys.exit("differ: " + " ".join(wrong))
        return
    DATA.mkdir(parents=True, exist_ok=True)
    for path, content in files.items():
        path.write_bytes(content)


main()
