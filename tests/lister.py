#!/usr/bin/env python3
"""The built lister on inputs around its limit (01, "Lister": at most 65,536 bytes; more prints only `0`, tab, `long`).

    tests/lister.py [PROGRAM]     PROGRAM: crates/ftdlist/out/ftdlist, where it is not given

Compares what the program prints of 65,535, 65,536, 65,537 and 70,000 bytes of whole packets, of 65,536 with a packet cut off, and of
nothing, from a file and through a pipe, with what the independent lister says (tests/captures/make.py). Before that it shows on planted
listers that it finds each of them, and where. Needs Python 3 and the built program alone, and the kit's loader, as `rt` does, where the
program doesn't run by itself. Exit status 1 if anything differs, or the program fails.
"""
import os
import pathlib
import random
import shutil
import subprocess
import sys
import tempfile

root = pathlib.Path(__file__).resolve().parent.parent
sys.path.insert(0, str(root / "tests" / "captures"))
import make  # noqa: E402  the independent lister

rng = random.Random("lister")
INPUTS = {"nothing": b""}
INPUTS.update({f"{size} bytes": make.exactly(rng, size) for size in (make.MOST - 1, make.MOST, make.MOST + 1, 70000)})
CUT = f"{make.MOST} bytes, the last packet cut off"
INPUTS[CUT] = make.exactly(rng, make.MOST + 1)[: make.MOST]
FULL, ONE_MORE, MANY_MORE = f"{make.MOST} bytes", f"{make.MOST + 1} bytes", "70000 bytes"
LONG = make.line(0, ["long"])


# ─── Planted listers, each with the inputs at which it is wrong ───


def never_long(capture):
    """Lists the first 65,536 bytes, and never says `long`."""
    return make.listing(capture[: make.MOST])


def early(capture):
    """Says `long` from 65,536 bytes on."""
    return LONG if len(capture) >= make.MOST else make.listing(capture)


def late(capture):
    """Says `long` from 65,538 bytes on."""
    return never_long(capture) if len(capture) == make.MOST + 1 else make.listing(capture)


def long_and_more(capture):
    """Says `long`, and goes on."""
    return make.listing(capture) + (never_long(capture) if len(capture) > make.MOST else b"")


def long_at_its_end(capture):
    """Says `long` with another offset."""
    return make.listing(capture).replace(LONG, make.line(len(capture), ["long"]))


def without_end(capture):
    """Leaves the last line out."""
    return b"".join(make.listing(capture).splitlines(True)[:-1])


PLANTED = {
    never_long: [ONE_MORE, MANY_MORE],
    early: [FULL, CUT],
    late: [ONE_MORE],
    long_and_more: [ONE_MORE, MANY_MORE],
    long_at_its_end: [ONE_MORE, MANY_MORE],
    without_end: list(INPUTS),
}


# ─── The program ───


def runs(command, **how):
    """What a program prints, or that it failed."""
    try:
        done = subprocess.run(command, stdout=subprocess.PIPE, check=False, **how)
    except OSError as error:
        return str(error).encode()
    return done.stdout if done.returncode == 0 else b"ended with status %d" % done.returncode


def by_pipe(command):
    return lambda capture: runs(command, input=capture)


def by_file(command):
    def lister(capture):
        with tempfile.TemporaryFile() as file:
            file.write(capture)
            file.seek(0)
            return runs(command, stdin=file)

    return lister


def command_of(program):
    """The program itself, or by the kit's loader where it doesn't run so."""
    try:
        # 127: its loader finds no C library.
        if subprocess.run([program], input=b"", stdout=subprocess.PIPE, check=False).returncode != 127:
            return [program]
    except OSError:
        pass
    kit = os.environ.get("RATTLE_HOME") or pathlib.Path(os.path.realpath(shutil.which("rt") or "")).parent.parent
    tools = pathlib.Path(kit) / "on" / os.uname().machine / "toolchain"
    emulator = tools / "bin" / "qemu-x86_64"
    return [*([emulator] if emulator.exists() else []), tools / "lib" / "ld-linux-x86-64.so.2", "--library-path", tools / "lib", program]


def differences(lister):
    return [name for name, capture in INPUTS.items() if lister(capture) != make.listing(capture)]


def main(words):
    if len(words) > 1 or words[:1] in (["-h"], ["--help"]):
        print(__doc__, file=sys.stderr)
        return 2
    program = pathlib.Path(words[0]) if words else root / "crates" / "ftdlist" / "out" / "ftdlist"
    if not program.is_file():
        print(f"lister: there is no program {program.name}: `rt run` in crates/ftdlist builds it", file=sys.stderr)
        return 2
    for planted, where in PLANTED.items():
        if differences(planted) != where:
            print(f"lister: the planted lister {planted.__name__} was found out at {differences(planted)}, not at {where}")
            return 1
    command, wrong = command_of(program.resolve()), 0
    for way, lister in [("a file", by_file(command)), ("a pipe", by_pipe(command))]:
        for name in differences(lister):
            print(f"lister: another listing of {name} from {way}")
            wrong += 1
    print(f"lister: {len(INPUTS)} inputs around its limit, from a file and a pipe, {wrong} listed otherwise than by the independent lister")
    return 1 if wrong else 0


sys.exit(main(sys.argv[1:]))
