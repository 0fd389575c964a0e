#!/usr/bin/env python3
"""Counts of docs/DESIGN-PASS.md that no grep gives: tests/forms.py [FOLDER].

- Own enums, and those of the shape of Option or Result: two variants of which one holds a value, or at most three of which one is Refused.
- Functions whose bodies, of 22 words and signs and more, are alike with every name and number blanked, by groups.
"""
import collections
import pathlib
import re
import sys

root = pathlib.Path(sys.argv[1]) if len(sys.argv) > 1 else pathlib.Path(__file__).resolve().parent.parent
KEPT = set("if else match return let mut while loop for in fn pub as true false break continue Some None Ok Err self".split())
enums, shaped, bodies = 0, [], collections.defaultdict(list)
for path in sorted(root.glob("crates/*/src/**/*.rt")):
    text = re.sub(r"//[^\n]*", "", path.read_text())
    for k in re.finditer(r"^(?:pub(?:\(crate\))? )?enum (\w+) \{\n((?:[^}]|\{[^}]*\})*?)^\}", text, re.M):
        enums += 1
        variants = [v.strip() for v in re.sub(r"\{[^}]*\}|\([^)]*\)", "", k[2]).split(",") if v.strip()]
        if len(variants) == 2 and re.search(r"\w\s*[{(]", k[2]) or len(variants) <= 3 and "Refused" in variants:
            shaped.append(f"{path.parts[-3]}::{k[1]}")
    for k in re.finditer(r'^( *)(?:pub(?:\(crate\))? )?(?:extern "C" )?fn (\w+)', text, re.M):
        behind = re.search(r'^ *(?:pub(?:\(crate\))? )?(?:extern "C" )?fn \w+', text[k.end():], re.M)
        limit = k.end() + behind.start() if behind else len(text)
        start = text.find("\n" + k[1] + "{\n", k.end())
        start = start + 1 + len(k[1]) if 0 <= start <= limit else text.find("{\n", k.end())
        if not 0 <= start <= limit:
            continue
        depth, end = 0, start
        while end < len(text):
            depth += (text[end] == "{") - (text[end] == "}")
            end += 1
            if depth == 0:
                break
        words = re.findall(r"[A-Za-z_]\w*|\d\w*|[^\s\w]", text[start:end])
        blank = " ".join(w if w in KEPT else "x" if re.match("[A-Za-z_]", w) else "0" if w[0].isdigit() else w for w in words)
        if len(words) >= 22:
            bodies[blank].append(f"{path.parts[-3]}::{path.stem}::{k[2]}")
groups = [names for names in bodies.values() if len(names) > 1]
print(f"{enums} enums, {len(shaped)} of the shape of Option or Result: {', '.join(shaped)}")
print(f"{sum(map(len, groups))} functions in {len(groups)} groups are alike but for names and numbers:")
for names in groups:
    print("  " + ", ".join(names))
