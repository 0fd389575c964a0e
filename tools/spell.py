#!/usr/bin/env python3
"""Brings the definitions, lemmas and variables of specs/ and proofs/ to snake case: tools/spell.py, at the top, once.

A word such as tradeDateOf becomes trade_date_of, wherever it stands in .antt and .rt files, in edits, and between
backquotes of the pages. Four private facts that were spelled as lemmas become IsTaken, IsShaped, IsSmall,
IsSmallPacket. Eight lemmas that would fall together with a definition get a name of their own first (LEMMAS). Text
between quotes stays. Where two names of one file would still fall together, they are told, and nothing is written.
"""
import glob
import os
import re
import sys

PIECE = re.compile(r"(?<![A-Za-z0-9_])[a-z][a-z0-9_]*[A-Z][A-Za-z0-9_]*")
TEXT = re.compile(r'"(?:\\.|[^"\\\n])*"')
FACTS = {"is-taken": "IsTaken", "is-shaped": "IsShaped", "is-small": "IsSmall", "is-small-packet": "IsSmallPacket"}
LEMMAS = {
    "crates/book/proofs/agreement/Ranked.antt": ("put_first", "put_first-is"),
    "crates/book/proofs/event/Laws.antt": ("is_field", "is_field-with"),
    "crates/book/proofs/verdict/Answers.antt": ("one_more", "one_more-is"),
    "crates/fix/proofs/write/Answers.antt": ("is_framed", "is_framed-here"),
    "crates/ftd/proofs/item/Laws.antt": ("float_fits", "float_fits-parts"),
    "crates/ftd/proofs/signed/Laws.antt": ("float_fits", "float_fits-parts"),
    "crates/ftd/proofs/signed/Stores.antt": ("float_fits", "float_fits-parts"),
    "crates/ftd/proofs/table/Rule.antt": ("same_row", "same_row-is"),
    "crates/ftd/proofs/values/Checks.antt": ("same_bool", "same_bool-is"),
    "crates/play/proofs/player/Plays.antt": ("laid_out", "laid_out-plays"),
}
WORDS = {"noneLeft": "is_none_left"}
# A field of a record and the lemma that fills it: these may have one name.
FILLED = {("crates/book/proofs/agreement/Shown.antt", "fromLowest"), ("crates/ftd/proofs/values/Laws.antt", "floatBack")}
WHOLE = re.compile(r"(?<![A-Za-z0-9_'-])(?:is-taken|is-shaped|is-small-packet|is-small)(?![A-Za-z0-9_'-])")


def snake(word):
    if word in WORDS:
        return WORDS[word]
    word = re.sub(r"(?<=[a-z0-9])(?=[A-Z])", "_", word)
    return re.sub(r"(?<=[A-Z])(?=[A-Z][a-z])", "_", word).lower()


def spelled(text, facts):
    text = PIECE.sub(lambda m: snake(m.group(0)), text)
    return WHOLE.sub(lambda m: FACTS[m.group(0)], text) if facts else text


def outside(text, turn):
    """The text with turn applied outside of its quotes."""
    out, last = [], 0
    for m in TEXT.finditer(text):
        out += [turn(text[last:m.start()]), m.group(0)]
        last = m.end()
    return "".join(out + [turn(text[last:])])


def files(*patterns):
    return sorted(f for p in patterns for f in glob.glob(p, recursive=True) if "/out/" not in f and os.path.isfile(f))


def bare(text, word):
    return re.search(r"(?<![A-Za-z0-9_.'-])" + re.escape(word) + r"(?![A-Za-z0-9_'.-])", text)


def together(f, text):
    """The words of a file that would fall together with a name that the same file has already."""
    text = re.sub(r"//[^\n]*|--[^\n]*", "", TEXT.sub("", text))
    for word in sorted({m.group(0) for m in PIECE.finditer(text)}):
        new = snake(word)
        if (f, word) in FILLED or not bare(text, word) or not bare(text, new):
            continue
        # In a source file a function may have the name of the definition that it is stated by; a value may not.
        if not f.endswith(".rt") or re.search(rf"(?<![A-Za-z0-9_]){new}\s*:(?!:)|let (?:mut )?{new}\b", text):
            yield word


def read(f):
    with open(f, encoding="utf-8") as g:
        return g.read()


def write(f, text):
    with open(f, "w", encoding="utf-8") as g:
        g.write(text)


def main():
    sources = files("crates/*/src/**/*.rt", "crates/*/specs/**/*.antt", "crates/*/proofs/**/*.antt")
    edits = files("crates/*/must-fail/*.edit", "tests/wrong/**/*.edit")
    pages = files("*.md", "docs/*.md", "tests/**/*.md")
    texts = {f: read(f) for f in sources}
    old, told = {}, []
    for f, (lemma, name) in LEMMAS.items():
        texts[f] = re.sub(r"(?<![A-Za-z0-9_'-])" + lemma + r"(?![A-Za-z0-9_'-])", name, texts[f])
    for f, text in texts.items():
        for m in PIECE.finditer(TEXT.sub("", text)):
            if old.setdefault(snake(m.group(0)), m.group(0)) != m.group(0):
                told.append(f"{m.group(0)} and {old[snake(m.group(0))]} fall together")
        told += [f"{f}: {w} falls together with {snake(w)}" for w in together(f, text)]
    if told:
        print("\n".join(told))
        return 1
    known = set()
    for f, text in texts.items():
        write(f, outside(text, lambda t: spelled(t, f.endswith(".antt"))))
        known |= set(re.findall(r"[a-z][a-z0-9_]*", read(f)))
    for f in edits:
        write(f, outside(read(f), lambda t: spelled(t, True)))
    for f in pages:
        write(f, re.sub(r"`[^`\n]+`", lambda m: PIECE.sub(lambda n: snake(n.group(0)) if snake(n.group(0)) in known else n.group(0), m.group(0)), read(f)))
    print(f"{len(old)} words")
    return 0


sys.exit(main())
