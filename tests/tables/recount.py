#!/usr/bin/env python3
"""A second, rough reading of Appendices A to E, sharing no code with appendices.py, and what the outputs say of it.

    recount.py STANDARD.txt tables.json rattle.txt

It goes by line numbers and first words, knows no columns, has no list of corrections (an item of D that C lacks is
taken from the nearest spelling), takes widths from the length column of B instead of the <..>, and compares its
table with tables.json and with both halves of the --rattle output, read back.
"""
import difflib
import json
import re
import sys

lines = open(sys.argv[1], encoding="utf-8").read().splitlines()
tables = json.load(open(sys.argv[2], encoding="utf-8"))
rattle = open(sys.argv[3], encoding="utf-8").read()
fails = 0


def same(what, a, b):
    global fails
    if a != b:
        fails += 1
        print("DIFFERS", what)
        for x, y in zip(a, b):
            if x != y:
                print("   ", x, y)
                break
        else:
            print("   ", len(a), len(b))
    else:
        print("same    %s (%d)" % (what, len(a)))


def bare(s):
    return re.sub(r"<br/?>|</?b>", "", s).replace("&lt;", "<").replace("&gt;", ">")


def part(first, last):
    return [bare(l) for l in lines[first - 1:last] if l.startswith("|") and not re.match(r"\|-", l)]


first_word = lambda l: (re.findall(r"[A-Za-z][A-Za-z_]+", l) or [None])[0]

# A: 1201 to 1243
tid = {m.group(1): int(m.group(2), 16) for l in part(1201, 1243) for m in [re.search(r"TID_(\w+) *\| *(0x\w+)", l)] if m}

# B: 1244 to 1319: name, base, then the first two whole-number cells are length and precision
types = {}
for l in part(1244, 1319):
    m = re.match(r"\| *(FTD\w+) *\| *FTD([A-Z][a-z]+)Type[^|]*\| *(\d+) *\| *(\d+) *\|[^|]*\|(.*)\|$", l)
    if m:
        name, base, width, dec, tail = m.groups()
        values = tuple(sorted(int(v) for v in re.findall(r"(\d)\s*-", tail))) if base == "Char" else None
        types[name] = ("Date" if name == "FTDDate" else base, int(width), int(dec), values)

# C: 1320 to 1559
items = {}
for l in part(1320, 1559):
    m = re.match(r"\| *(\w+) *\| *(FTD\w+)(?:<(\d+)(?:,(\d+))?>)? *\|", l)
    if m and m.group(1).isascii():
        name, ty, a, b = m.groups()
        if ty in types:
            items[name] = types[ty]
        else:
            base = re.fullmatch(r"FTD(\w+)Type", ty).group(1)
            items[name] = (base, int(a) if a else {"Char": 1, "Word": 2, "Int": 4}[base], int(b or 0), None)

# D: 1560 to 2074
fids, rows, guessed = {}, [], []
for l in part(1560, 2074):
    w = first_word(l)
    h = re.search(r"0x([0-9A-F]{4})", l)
    if w is None:
        continue
    if h:
        now = fids[w] = int(h.group(1), 16)
        field = w
    else:
        if w not in items:
            near = difflib.get_close_matches(w, items, 1, 0.85)[0]
            guessed.append((w, near))
            rows.append((now, field, w) + items[near])
        else:
            rows.append((now, field, w) + items[w])

# E: 2075 to 2242
parts = []
for l in part(2075, 2242):
    w = first_word(l)
    if w is None:
        continue
    if w.endswith("Field"):
        most, least = re.findall(r"任意|\d+", l)[-2:]
        parts.append((message, w, fids[w], int(least), None if most == "任意" else int(most)))
    else:
        message = w

print("second reading: %d TIDs, %d types, %d items, %d fields, %d rows, %d bytes, %d messages, %d lines of E"
      % (len(tid), len(types), len(items), len(fids), len(rows), sum(r[4] for r in rows), len({p[0] for p in parts}), len(parts)))
print("nearest spelling taken:", sorted(set(guessed)))

srt = lambda e: None if e is None else tuple(sorted(e))
same("TIDs", [(t["name"][4:], t["tid"]) for t in tables["tids"]], list(tid.items()))
same("types", [(t["name"], t["basic"], t["width"], t["decimals"], srt(t["enumeration"])) for t in tables["types"]],
     [(k,) + v for k, v in types.items()])
same("items", [(t["printed"], t["basic"], t["width"], t["decimals"], srt(t["enumeration"])) for t in tables["items"]],
     [(k,) + v for k, v in items.items()])
same("rows", [(f["fid"], f["name"], r["item"], r["basic"], r["width"], r["decimals"], srt(r["enumeration"]))
              for f in tables["fields"] for r in f["rows"]], rows)
same("lines of E", [(m["name"], f["name"], f["fid"], f["least"], f["most"]) for m in tables["messages"]
                    for f in m["fields"]], parts)
same("TIDs and directions of E",
     [(m["tid"], m["direction"]) for m in tables["messages"]],
     [(tid[re.sub("^(Req|Rsp)", "", m)], "up" if m.startswith("Req") else "down") for m in dict.fromkeys(p[0] for p in parts)])

# --rattle read back
kinds = {}
for m in re.finditer(r"∷?\s+enumeration (\d+) \(([^)]*)\)", rattle):
    kinds[tuple(int(x) for x in re.findall(r"\d+", m.group(2)))] = int(m.group(1))
base = {"Char": 0, "Word": 1, "Int": 2, "String": 3, "Number": 4, "Float": 5, "Date": 6}
kind = lambda r: kinds[r[6]] if r[6] is not None else base[r[3]]


def const(name):
    m = re.search(r"static %s: \[(u8|u16); (\d+)\] = \[([^\]]*)\]" % name, rattle)
    vs = [int(x) for x in re.findall(r"\d+", m.group(3))]
    assert len(vs) == int(m.group(2)) and max(vs) < {"u8": 256, "u16": 65536}[m.group(1)], name
    return vs


want = [(r[0], kind(r), r[4], r[5]) for r in rows]
same("columns FID KIND WIDTH SCALE", list(zip(const("FID"), const("KIND"), const("WIDTH"), const("SCALE"))), want)
got = re.findall(r"^  [ ∷] row (\d+) (\d+) (\d+) (\d+) *-- (\w+)\.(\w+) (\S+)$", rattle, re.M)
same("antt rows", [tuple(map(int, g[:4])) + g[4:6] for g in got], [w + (r[1], r[2]) for w, r in zip(want, rows)])
for g in got:                                  # the type named in the comment gives the kind's width and scale
    b = re.fullmatch(r"FTD(\w+?)Type(?:<(\d+)(?:,(\d+))?>)?", g[6])
    t = types[g[6]] if g[6] in types else (b.group(1), int(b.group(2) or {"Char": 1, "Word": 2, "Int": 4}[b.group(1)]), int(b.group(3) or 0), None)
    if (int(g[2]), int(g[3])) != t[1:3]:
        fails += 1
        print("DIFFERS", g)
side = lambda m: 0 if m.startswith("Req") else 1
want = [(tid[re.sub("^(Req|Rsp)", "", p[0])], side(p[0]), p[2], p[3], 65535 if p[4] is None else p[4]) for p in parts]
same("columns of E", list(zip(*(const("MESSAGE_" + n) for n in ("TID", "DIRECTION", "FID", "LEAST", "MOST")))), want)
got = re.findall(r"^  [ ∷] part (\d+) (\d+) (\d+) (\d+) (\d+) *-- (\w+)\.(\w+) ", rattle, re.M)
same("antt parts", [tuple(map(int, g[:5])) + g[5:] for g in got], [w + (p[0], p[1]) for w, p in zip(want, parts)])
sums, count = {}, {}
for r in rows:
    sums[r[0]] = sums.get(r[0], 0) + r[4]
    count[r[0]] = count.get(r[0], 0) + 1
got = re.findall(r"^  [ ∷] total (\d+) (\d+) (\d+) ", rattle, re.M)
same("antt totals", [tuple(map(int, g)) for g in got], [(f, count[f], sums[f]) for f in sums])
got = re.findall(r"^  [ ∷] form (\d+) (\d+) (\d+) *-- (\S+)$", rattle, re.M)
same("antt forms of B", [tuple(map(int, g[:3])) + (g[3],) for g in got if g[3] in types],
     [(kinds[t[3]] if t[3] is not None else base[t[0]], t[1], t[2], n) for n, t in types.items()])
trip = {tuple(map(int, g[:3])) for g in got}
bad = [r for r in rows if (kind(r), r[4], r[5]) not in trip]
same("rows whose kind, width and scale are no type", bad, [])
runs = [r[0] for i, r in enumerate(rows) if i == 0 or rows[i - 1][0] != r[0]]
same("runs of one FID (rows of a field adjoin)", runs, list(fids.values()))
print("FAILS: %d" % fails)
sys.exit(1 if fails else 0)
