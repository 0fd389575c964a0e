#!/usr/bin/env python3
"""How many bytes of stack each function of the static library takes at most: stack.py libftd.a

Reads the disassembly (objdump). A function's own part is its return address, all that it pushes, all that it takes off the stack
pointer, and what it uses below that (the red zone); its whole is its own part and the largest whole of those that it calls.
`put_rest`, which writes a message's packets, calls itself for each packet behind the first, at most 17 (ChainLaws.few), and once
more where the content breaks off behind them. memcpy, memmove and memset are the C library's and count as a return address alone. Structs
that are passed or returned by value lie in the caller's frame and are not counted.
"""
import re
import subprocess
import sys

OUTSIDE = {"memcpy", "memmove", "memset"}
TURNS = {"ftd::chain::put_rest": 18}


def read(path):
    """Each function's own part, and which functions it calls."""
    text = subprocess.run(["objdump", "-dr", "--no-show-raw-insn", path], capture_output=True, text=True, check=True).stdout
    own, red, calls, here = {}, {}, {}, None
    for line in text.split("\n"):
        start = re.match(r"[0-9a-f]+ <(.*)>:$", line)
        if start:
            here = start.group(1)
            own[here], red[here], calls[here] = 8, 0, set()
        if here is None or start:
            continue
        if re.search(r"\tpushq? ", line):
            own[here] += 8
        if line.endswith(",%rsp") and re.search(r"\t(sub|and|lea|mov) ", line):
            taken = re.search(r"\tsub +\$0x([0-9a-f]+),%rsp", line)
            if not taken:
                sys.exit(f"{here}: not read: {line}")
            own[here] += int(taken.group(1), 16)
        for used in re.findall(r"[ ,]-0x([0-9a-f]+)\(%rsp", line):
            red[here] = max(red[here], int(used, 16))
        target = re.search(r"R_X86_64_PLT32\s+(?:\.text\.)?(.*)-0x4$", line)
        again = re.search(r"\tcallq? .*<([^+]*)>$", line)
        if target:
            calls[here].add(target.group(1))
        elif again and again.group(1) == here and "<" + here + ">" in line:
            calls[here].add(here)
    return {name: own[name] + red[name] for name in own}, calls


def whole(name):
    if name in OUTSIDE:
        return 8
    if name in calls[name] and name not in TURNS:
        sys.exit(f"{name} calls itself")
    return own[name] * TURNS.get(name, 1) + max((whole(f) for f in calls[name] if f != name), default=0)


own, calls = read(sys.argv[1])
for name in sorted(n for n in own if n.startswith("ftd_")):
    print(f"{name:20} {own[name]:6} {whole(name):6}")
