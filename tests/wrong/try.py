#!/usr/bin/env python3
"""Tries wrong programs that the gate does not try: each file tests/wrong/CRATE/NAME.edit is an edit of crates/CRATE that has to be refused.

    tests/wrong.sh                   all of them
    tests/wrong.sh CRATE             those of a crate
    tests/wrong.sh CRATE NAME ..     one, or several
    tests/wrong.sh --gate [CRATE ..] the same of the gate's (crates/*/must-fail), which `rt ci` tries: where each is refused
    tests/wrong.sh --texts           only that each edit, those of the gate too, can be made (every `old` text stands exactly once), and that
                                     docs/WRONG.md has the tables as they follow from the files
    tests/wrong.sh --table           the tables of docs/WRONG.md

A file has the format of the gate's edits (crates/*/must-fail): `file:`, `old:` and `new:` lines. Its first line says what is wrong with
the program, its second where it has to be refused: `at: FILE NAME`, the file of the first error and the name of what stands there (a
proof's goal or law, a function). A program that is refused elsewhere, or where a proof names what the edit took away, counts as a failure
like one that survives.
The tree is copied and each edit is checked in a copy of its crate, over what the check of the unchanged crate kept (`rt check`), two at
a time or RT_JOBS. One line for each edit and a count; exit status 1 if one survives, is refused elsewhere or cannot be made, 2 if the
unchanged crate is not proved. With WRONG_LOGS=FOLDER what the checker said of each edit is kept there.
"""
import concurrent.futures
import os
import pathlib
import re
import shutil
import subprocess
import sys
import tempfile
import time

root = pathlib.Path(__file__).resolve().parent.parent.parent


class BadEdit(Exception):
    pass


class NotProved(Exception):
    pass


def parts(path):
    """What is wrong, where it is to be refused (or None), and the replacements (file, old, new) of an edit."""
    lines = path.read_text().split("\n")
    at = lines[1][4:].strip() if len(lines) > 1 and lines[1].startswith("at: ") else None
    file, old, pairs = None, None, []
    for line in lines:
        if line.startswith("file: "):
            file = line[6:]
        elif line.startswith("old: "):
            old = line[5:]
        elif line.startswith("new:"):
            if file is None or not old:
                raise BadEdit("a `new:` line without `file:` and `old:` before it")
            pairs.append((file, old, line[4:].removeprefix(" ")))
            old = None
    if not pairs:
        raise BadEdit("no `old:` and `new:` pair")
    return lines[0], at, pairs


def made(crate, pairs):
    """The files of a crate (a folder) with the replacements made, by path; every `old` text has to stand exactly once."""
    texts = {}
    for file, old, new in pairs:
        if not re.match(r"(src|specs|proofs)/", file) or ".." in file.split("/"):
            raise BadEdit(f"{file} is no file of src, specs or proofs")
        if file not in texts:
            try:
                texts[file] = (crate / file).read_text()
            except OSError:
                raise BadEdit(f"there is no {file}") from None
        count = texts[file].count(old)
        if count != 1:
            raise BadEdit(f"{file}: {count} times: {old}")
        texts[file] = texts[file].replace(old, new)
    return texts


def table(paths, crate_of):
    """A row for each edit: crate and name, what is wrong, where it is refused first."""
    rows = ["| Program | What is wrong | Refused first at |", "|---|---|---|"]
    for path in paths:
        what, at, _ = parts(path)
        file, _, name = (at or "- -").partition(" ")
        rows.append(f"| {crate_of(path)}/{path.stem} | {what.rstrip('.')} | {file}: `{name}` |")
    return "\n".join(rows) + "\n"


def tables():
    """Those of the gate, and those of tests/wrong."""
    gate = table(sorted(root.glob("crates/*/must-fail/*.edit")), lambda p: p.parent.parent.name)
    files = table(sorted(root.glob("tests/wrong/*/*.edit")), lambda p: p.parent.name)
    return gate, files


def check_texts():
    """Every edit of the gate and of tests/wrong can be made."""
    bad = count = 0
    gate = sorted(root.glob("crates/*/must-fail/*.edit"))
    for path in gate + sorted(root.glob("tests/wrong/*/*.edit")):
        crate = path.parent.parent.name if path in gate else path.parent.name
        count += 1
        try:
            what, at, pairs = parts(path)
            made(root / "crates" / crate, pairs)
            if (at is not None or path not in gate) and not re.fullmatch(r"(src|specs|proofs)/\S+ \S+", at or ""):
                raise BadEdit("its second line does not say where it is refused (`at: FILE NAME`)")
            if not what.strip() or what.startswith("file: "):
                raise BadEdit("its first line does not say what is wrong")
        except BadEdit as e:
            bad += 1
            print(f"{path.relative_to(root)}: {e}")
    print(f"wrong programs: {count} edits, of which {len(gate)} are the gate's; {bad} are wrong in themselves")
    said = (root / "docs" / "WRONG.md").read_text()
    if not bad and not all(part in said for part in tables()):
        print("docs/WRONG.md: its tables are not those of the files (tests/wrong.sh --table)")
        bad = 1
    return 1 if bad else 0


def function_at(text, line):
    """The function of a .rt file that stands at a line."""
    found = [m.group(1) for l in text.split("\n")[:line] if (m := re.search(r"\bfn (\w+)", l))]
    return found[-1] if found else "-"


def first_error(log, crate):
    """Where the first error is: `FILE NAME`, the name as the checker gives it. What only follows from another error does not count: a
    declaration that was not checked, or a proof that uses one which was not admitted. Where the checker makes a function's proof itself,
    what fails is told at the function: its source file and its name, behind a colon the goal."""
    for m in re.finditer(r"^\.?/?(\S+?):\d+:\d+: error: (?:`(\S+?)`: )?(.*)", log, re.M):
        if "was not admitted" not in m.group(3) and "was rejected, was not checked" not in m.group(3) and "not checked:" not in m.group(3):
            return f"{m.group(1)} {m.group(2) or '-'}"
    m = re.search(r"^note: \.?/?(\S+?):(\d+):\d+: .*?(?:\(`(\S+?)`\)|$)", "\n".join(l for l in log.split("\n") if "prove" in l), re.M)
    if m:
        return f"{m.group(1)} {function_at((crate / m.group(1)).read_text(), int(m.group(2)))}"
    m = re.search(r"^fn \w+::(\S+): no proof: expected (?:answers|a measure|an invariant).*", log, re.M)
    if m:
        names = m.group(1).split("::")
        file = next((f"src/{'/'.join(names[:k])}.rt" for k in range(len(names) - 1, 0, -1) if (crate / f"src/{'/'.join(names[:k])}.rt").is_file()), "src/lib.rt")
        return f"{file} {names[-1]}"
    return "nowhere -"


def rt(folder, *words):
    return subprocess.run(["rt", *words], cwd=folder, stdout=subprocess.PIPE, stderr=subprocess.STDOUT, text=True, errors="replace")


def try_one(room, path, crate):
    """One edit in a copy of the tree, which is as it was afterwards: the line to print, and whether it was refused where it has to be."""
    label = f"{crate}/{path.stem}"
    folder = room / "crates" / crate
    began = time.monotonic()
    try:
        _, at, pairs = parts(path)
        texts = made(folder, pairs)
    except BadEdit as e:
        return f"{label}: BAD EDIT: {e}", False
    before = {file: (folder / file).read_text() for file in texts}
    try:
        for file, text in texts.items():
            (folder / file).write_text(text)
        done = rt(folder, "check", "--jobs", "1")
        log = "\n".join(l for l in done.stdout.split("\n") if not l.startswith("so far: "))
        if keep := os.environ.get("WRONG_LOGS"):
            os.makedirs(keep, exist_ok=True)
            pathlib.Path(keep, label.replace("/", "-") + ".log").write_text(log)
        took = f"{time.monotonic() - began:.0f} s"
        if done.returncode == 0:
            return f"{label}: NOT REFUSED ({took})", False
        if "logic=not-proved" not in log:
            first = next((l for l in log.split("\n") if "error" in l), "")[:200]
            return f"{label}: BAD EDIT: it did not reach the prover: {first}", False
        if gone := re.search(r"error: .*(?:has no `[^`]*` that can be named|has no field|is not in scope: add)", log):
            return f"{label}: BAD EDIT: it names what is not there: {gone.group(0)[:160]}", False
        place = first_error(log, folder)
        if place != at:
            return f"{label}: REFUSED ELSEWHERE: {place}; expected {at} ({took})", False
        return f"{label}: refused at {place} ({took})", True
    finally:
        for file, text in before.items():
            (folder / file).write_text(text)


def try_all(room, edits):
    """The edits of one crate, one behind the other, in a copy of the tree: the lines, and how many were not refused where they have to be."""
    crate = edits[0][1]
    done = rt(room / "crates" / crate, "check", "--jobs", "1")
    if done.returncode != 0:
        print(done.stdout[-2000:])
        raise NotProved(crate)
    failed = 0
    for path, _ in edits:
        line, fine = try_one(room, path, crate)
        print(line, flush=True)
        failed += not fine
    return failed


def main(words):
    if words[:1] in (["-h"], ["--help"]):
        print(__doc__)
        return 0
    if words == ["--texts"]:
        return check_texts()
    if words == ["--table"]:
        print("\n".join(tables()))
        return 0
    gate = words[:1] == ["--gate"]
    words = words[gate:]
    if any(w.startswith("-") for w in words):
        print(__doc__, file=sys.stderr)
        return 2
    all_edits = [(p, p.parent.parent.name) for p in sorted(root.glob("crates/*/must-fail/*.edit"))] if gate else [
        (p, p.parent.name) for p in sorted(root.glob("tests/wrong/*/*.edit"))]
    edits = [(p, crate) for p, crate in all_edits if (not words or crate == words[0]) and (len(words) < 2 or p.stem in words[1:])]
    if not edits or len(words) > 1 and len(edits) < len(set(words[1:])):
        print(f"wrong programs: there is no such file: {' '.join(words)}", file=sys.stderr)
        return 2
    jobs = int(os.environ.get("RT_JOBS", "2"))
    with tempfile.TemporaryDirectory() as folder:
        rooms = []
        for i in range(jobs):
            room = pathlib.Path(folder).resolve() / str(i)
            shutil.copytree(root / "crates", room / "crates", ignore=shutil.ignore_patterns("out"))
            shutil.copy(root / "crates.txt", room)
            rooms.append(room)
        # Each copy takes a crate, the one with most edits first; a crate with many is cut into as many parts as there are copies.
        parts_of = []
        for crate in sorted({c for _, c in edits}):
            own = [e for e in edits if e[1] == crate]
            parts_of += [own[i::jobs] for i in range(jobs) if own[i::jobs]]
        parts_of.sort(key=len, reverse=True)
        free = rooms[:]

        def one(part):
            room = free.pop()
            try:
                return try_all(room, part)
            finally:
                free.append(room)

        try:
            with concurrent.futures.ThreadPoolExecutor(jobs) as pool:
                failed = sum(pool.map(one, parts_of))
        except NotProved as crate:
            print(f"wrong programs: crate {crate} itself is not proved", file=sys.stderr)
            return 2
    print(f"wrong programs: {len(edits)} tried, {len(edits) - failed} refused where they have to be, {failed} not")
    return 1 if failed else 0


sys.exit(main(sys.argv[1:]))
