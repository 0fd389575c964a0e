#!/usr/bin/env python3
"""The tables of crates/ftd, made from the text of the standard, and compared with it.

    made.py STANDARD.txt              compares rows, places, enumerations, TIDs and columns with the standard
    made.py STANDARD.txt --rows       the rows of Appendix D, as specs/Table.antt has them
    made.py STANDARD.txt --places     first row, number of rows and width of each field, as specs/Table/Rule.antt has them
    made.py STANDARD.txt --tids       the TIDs of Appendix A, as specs/Mode.antt has them
    made.py STANDARD.txt --columns    the columns of src/table.rt

The text of the standard is not in the repository. appendices.py reads it, recount.py reads it a second time with no code
of the first, and compare_g.py lists where Appendix G differs.
"""
import os
import re
import sys

import appendices

CRATE = os.path.join(os.path.dirname(os.path.abspath(__file__)), "..", "..", "crates", "ftd")


def tables(std):
    rows = [(f["fid"], appendices.kind_of(std, r), r["width"], r["decimals"], r["item"], r["type"])
            for f in std["fields"] for r in f["rows"]]
    places = {0: (0, 0, 0)}
    at = 0
    for f in std["fields"]:
        places[f["fid"]] = (at, len(f["rows"]), f["width"])
        at += len(f["rows"])
    return rows, [places[n] for n in range(len(places))]


def columns(rows, places):
    return {"KIND": [r[1] for r in rows], "WIDTH": [r[2] for r in rows], "SCALE": [r[3] for r in rows],
            "START": [p[0] for p in places], "COUNT": [p[1] for p in places], "WIDE": [p[2] for p in places]}


def text(*path):
    with open(os.path.join(CRATE, *path), encoding="utf-8") as f:
        return f.read()


def kind_names():
    """The kinds' names, by number."""
    found = re.findall(r"^(\w+_kind) = (\d+)$", text("specs", "Table.antt"), re.M)
    return [name for name, _ in sorted(found, key=lambda f: int(f[1]))]


def compare(std):
    rows, places = tables(std)
    fails = 0

    def same(what, paper, here):
        nonlocal fails
        ok = paper == here
        fails += not ok
        print("%-7s %s (%d)" % ("ok" if ok else "DIFFERS", what, len(paper)))
        if not ok:
            print("    %s" % next(((a, b) for a, b in zip(paper, here) if a != b), (len(paper), len(here))).__repr__())

    spec = text("specs", "Table.antt")
    kinds = kind_names()
    found = re.findall(r"row 0x([0-9A-F]{4}) (\w+) (\d+) (\d+) +-- (\S+) (\S+)", spec)
    same("rows of Appendix D, with item and type", rows,
         [(int(r[0], 16), kinds.index(r[1]), int(r[2]), int(r[3])) + r[4:] for r in found])
    heads = re.findall(r"-- (\w+), FID 0x([0-9A-F]{4}): (\d+) rows, (\d+) bytes", spec)
    same("fields, with name, rows and width", [(f["name"], f["fid"], len(f["rows"]), f["width"]) for f in std["fields"]],
         [(h[0], int(h[1], 16), int(h[2]), int(h[3])) for h in heads])
    listed = spec[spec.index("enumerations ="):spec.index("-- ", spec.index("enumerations ="))]
    same("enumerations", [sorted(v) for v, _ in appendices.enumerations(std)],
         [[int(x) for x in re.findall(r"\d+", m)] for m in re.findall(r"\(([^()]*)\)", listed)])
    found = re.findall(r"place (\d+) (\d+) (\d+) +--", text("specs", os.path.join("Table", "Rule.antt")))
    same("places, by FID", places, [tuple(map(int, p)) for p in found])
    found = re.findall(r"0x([0-9A-F]{4}) +-- (TID_\w+)", text("specs", "Mode.antt"))
    same("TIDs of Appendix A, with name", [(t["tid"], t["name"]) for t in std["tids"]],
         [(int(t[0], 16), t[1]) for t in found])
    code = text("src", "table.rt")
    names = {n: int(v) for n, v in re.findall(r"pub const (\w+): u8 = (\d+);", text("src", "kinds.rt"))}
    for name, column in columns(rows, places).items():
        found = re.search(r"static %s: \[\w+; (\d+)\] = \[([^\]]*)\]" % name, code)
        entries = re.findall(r"(\w+)(?:,|\s*\Z)(?: // (\w+) (\S+): (\S+))?\s*", found.group(2))
        same("column " + name, column, [names[e[0]] if e[0] in names else int(e[0]) for e in entries])
        if name == "KIND":
            fields = {f["fid"]: f["name"] for f in std["fields"]}
            same("its comments: field, item and type", [(fields[r[0]], r[4], r[5]) for r in rows], [e[1:] for e in entries])
    print("%d fields, %d rows, %d bytes; %d differ" % (len(std["fields"]), len(rows), sum(r[2] for r in rows), fails))
    return 1 if fails else 0


def main(args):
    if not args or args[0].startswith("-"):
        print(__doc__)
        return 2
    std = appendices.read_standard(args[0])
    rows, places = tables(std)
    if args[1:] == ["--rows"]:
        head = "    "
        names = {f["fid"]: f for f in std["fields"]}
        kinds = kind_names()
        last = None
        for fid, kind, width, scale, item, kind_name in rows:
            if fid != last:
                f = names[fid]
                print("    -- %s, FID 0x%04X: %d rows, %d bytes" % (f["name"], fid, len(f["rows"]), f["width"]))
            print("%srow 0x%04X %s %d %d  -- %s %s" % (head, fid, kinds[kind], width, scale, item, kind_name))
            head, last = "    ∷ ", fid
        print("    ∷ []")
    elif args[1:] == ["--places"]:
        names = {f["fid"]: f["name"] for f in std["fields"]}
        for n, p in enumerate(places):
            print("    %splace %d %d %d  -- %s" % (("∷ " if n else "",) + p + ("0x%04X %s" % (n, names[n]) if n else "0 is no FID",)))
        print("    ∷ []")
    elif args[1:] == ["--tids"]:
        for n, t in enumerate(std["tids"]):
            print("    %s0x%04X  -- %s" % ("∷ " if n else "", t["tid"], t["name"]))
        print("    ∷ []")
    elif args[1:] == ["--columns"]:
        for name, column in columns(rows, places).items():
            print("%s: %s" % (name, ", ".join(map(str, column))))
    else:
        return compare(std)
    return 0


if __name__ == "__main__":
    sys.exit(main(sys.argv[1:]))
