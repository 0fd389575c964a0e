#!/usr/bin/env python3
"""Appendix E of crates/ftd, compared with the standard: messages.py STANDARD.txt

The lines of specs/Composition.antt and the columns of src/composition.rt. made.py does the same for Appendices A, B and D.
"""
import re
import sys

import appendices
import made


def lines(std):
    return [(m["tid"], 0 if m["direction"] == "up" else 1, p["fid"], p["least"], p["most"] or 0)
            for m in std["messages"] for p in m["fields"]]


def main():
    want = lines(appendices.read_standard(sys.argv[1]))
    listed = re.findall(r"^ +(?:∷ )?listed 0x([0-9A-F]{4}) (Up|Down) 0x([0-9A-F]{4}) (\d+) (\d+)", made.text("specs", "Composition.antt"), re.M)
    have = [(int(t, 16), 0 if d == "Up" else 1, int(f, 16), int(lo), int(hi)) for t, d, f, lo, hi in listed]
    code = made.text("src", "composition.rt")
    names = ("TID", "DIRECTION", "FID", "LEAST", "MOST")
    body = [re.search(r"static %s: \[\w+; \d+\] = \[(.*?)\];" % n, code, re.S).group(1) for n in names]
    columns = list(zip(*([int(x, 0) for x in re.findall(r"\w+", re.sub(r"//[^\n]*", "", b))] for b in body)))
    wrong = sum(a != b for a, b in zip(have, want)) + abs(len(have) - len(want))
    wrong += sum(a != b for a, b in zip(columns, want)) + abs(len(columns) - len(want))
    print("%d lines of Appendix E; %d differ" % (len(want), wrong))
    sys.exit(1 if wrong else 0)


main()
