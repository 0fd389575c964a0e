#!/usr/bin/env python3
"""The texts say what is there: README.md and docs/*.md.

- Every name that they cite in backquotes exists. A name is looked for where its form says: a path among the files, `crate/label` among the
  wrong programs (crates/*/must-fail, tests/wrong), `module::item` and plain names among the words of src, specs, proofs, the C header and
  the tests' programs (a name with dots, as `ReadLaws.whole`, part by part). Text in backquotes that is no name, as a formula or bytes, is
  passed over; a name that is gone stands in quotation marks.
- Prose has at most 120 columns (tables and indented or fenced blocks may have more).
- The counts of lines to be believed, and that of the player's script, are those of the files (docs/GUIDE.md).

Prints what is wrong, and fails if anything is.
"""
import pathlib
import re
import sys

root = pathlib.Path(__file__).resolve().parent.parent
DOCS = ["README.md"] + sorted(str(p.relative_to(root)) for p in root.glob("docs/*.md"))
# Words of the papers, of the language and of programs that are cited as such, not as names of this repository.
WORDS = {"requires", "ensures", "heart", "link", "skip", "refused", "end", "short", "long", "libc::read", "libc::write", "u64", "u32"}
WORDS |= {"memcpy", "socat"}

files = {str(p.relative_to(root)) for p in root.rglob("*") if p.is_file() and "target" not in p.parts and ".git" not in p.parts}
sources = [f for f in files if f.startswith("crates/") and f.endswith((".rt", ".antt"))]
sources += [f for f in files if f.startswith(("include/", "tests/outside/src/", "tests/reader/src/")) and f.endswith((".h", ".rs"))]
words = set()
for f in sources:
    words.update(re.findall(r"[^\W\d][\w\-′?→]*", (root / f).read_text()))
    words.update(pathlib.Path(f).parts)
    words.add(pathlib.Path(f).stem)
# Goals that only a wrong program has, which its edit names.
for f in files:
    if f.endswith(".edit"):
        words.update(re.findall(r"goal\.(returns-[\w\-]+)", (root / f).read_text()))


def is_path(name):
    return any(f == name or f.endswith("/" + name) or ("/" + name.rstrip("/") + "/") in ("/" + f) or f.endswith("/" + name + ".antt") for f in files)


def is_edit(name):
    """`crate/label`, or a label alone."""
    crate, _, label = name.rpartition("/")
    crate = re.escape(crate) if crate else "[^/]+"
    return any(re.fullmatch(f"(crates/{crate}/must-fail|tests/wrong/{crate})/{re.escape(label)}.edit", f) for f in files)


def exists(name):
    if name in WORDS:
        return True
    if "/" in name:
        return is_path(name) or is_edit(name)
    parts = [p for p in re.split(r"::|\.", name) if p and p not in ("antt", "rt", "md", "py", "sh")]
    return all(p in words or is_path(p) for p in parts) or is_edit(name)


def lines_in(file):
    """Lines to be believed: of definitions without comments, blank lines and imports; of src the types and constants."""
    count, inside = 0, False
    for line in (root / file).read_text().split("\n"):
        text = line.strip()
        if not text or text.startswith(("--", "//")) or re.match(r"(ghost )?use |(pub )?mod ", text):
            continue
        if file.endswith(".rt"):
            starts = re.match(r"pub (struct|enum|const) ", text)
            count += bool(inside or starts)
            ends = text.endswith(";") or text == "}" or (starts and text.endswith("}"))
            inside = bool((inside or starts) and not ends)
        else:
            count += 1
    return count


def numbers(text):
    return [int(n.replace(",", "")) for n in re.findall(r"\d[\d,]*\d|\d", text)]


wrong = []
count = 0
for doc in DOCS:
    fenced = False
    for number, line in enumerate((root / doc).read_text().split("\n"), 1):
        fenced ^= line.startswith("```")
        if len(line) > 120 and not fenced and not line.startswith(("|", "    ")):
            wrong.append(f"{doc}:{number}: {len(line)} columns")
        for name in re.findall(r"`([^`]+)`", line):
            if not re.fullmatch(r"\.?[^\W\d][\w\-′:./]*", name) or name.endswith("..") or name.startswith("tests/outside/target"):
                continue
            count += 1
            if not exists(name):
                wrong.append(f"{doc}:{number}: no such name: {name}")

# Tables of lines to be believed: files, their counts, and the sum that is named before the table.
guide = (root / "docs/GUIDE.md").read_text()
tables = re.findall(r"([\d,]+) in all(?:(?!\n## )[\s\S])*?\n\| Read \| Lines \| What it is \|\n\|---\|---\|---\|\n((?:\|.*\n)+)", guide)
for total, rows in tables:
    there = 0
    for row in rows.strip().split("\n"):
        cells = row.split("|")
        names, said = cells[1].strip(), numbers(cells[2])
        if names.startswith("of `ftd`: "):
            found = [sum(lines_in(f"crates/ftd/specs/{n}.antt") for n in names[10:].split(", "))]
        else:
            paths = [n if n.startswith("crates/") else f"crates/flow/{n}" if n.startswith(("src/", "specs/")) else f"crates/ftd/specs/{n}.antt"
                     for n in names.split(", ")]
            found = [lines_in(p) for p in paths]
        there += sum(found)
        if said[: len(found)] != found:
            wrong.append(f"docs/GUIDE.md: lines of {names}: {found}, not {said[:len(found)]}")
    if numbers(total) != [there]:
        wrong.append(f"docs/GUIDE.md: {there} lines in all, not {total}")
if len(tables) != 4:
    wrong.append("docs/GUIDE.md: the four tables of lines to be believed are not where they were")
script = (root / "crates/ftdplay/stdin").read_text().count("\n")
if numbers(re.search(r"Its stdin, ([\d,]+) lines", (root / "docs/PLAYER.md").read_text()).group(1)) != [script]:
    wrong.append(f"docs/PLAYER.md: the player's script has {script} lines")

for w in wrong:
    print(w)
print(f"texts: {count} names cited, {len(wrong)} things wrong")
sys.exit(1 if wrong else 0)
