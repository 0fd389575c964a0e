#!/usr/bin/env python3
"""Makes src/tables.rs from the text of JR/T 0016-2004.

    python3 tables.py STANDARD.txt > src/tables.rs

The tables are read from Appendix G (the XML description). Then each row is compared with the tables of Appendices A to E,
which decide where the two differ; every difference goes to standard error. Directions come from Table 7 (4.5.1).
"""
import html
import re
import sys

text = open(sys.argv[1], encoding="utf-8").read()
differences = []


def differs(place, name, in_g, decided):
    differences.append(f"{place}: {name}: G {in_g}; taken {decided}")


# --- Appendix G. The XML is damaged (page breaks, lost quotes and brackets), so tags are looked for one by one. ---

ELEMENTS = "packageDefine|field|tidDefine|fieldDefine|item|itemDefine|typeDefine|enumValue"


def plain(value):
    """A value without blanks, line breaks and escapes."""
    return re.sub(r"\s+", "", html.unescape(value.replace("\\_", "_")))


def type_of(words):
    """(name, length, precision) of a type such as FTDFloatType<12,4>; None for a number that isn't there."""
    m = re.fullmatch(r"(FTD\w+)(?:<(\d+)(?:,(\d+))?>?;?)?", words)
    return m[1], m[2] and int(m[2]), m[3] and int(m[3])


g_text = text[text.rindex("附 录 G"):]
starts = list(re.finditer(rf"<({ELEMENTS})\b", g_text))
g_messages, g_tids, g_fields, g_items, g_types = {}, {}, {}, {}, {}
for start, following in zip(starts, starts[1:] + [None]):
    segment = g_text[start.end():following.start() if following else len(g_text)]
    at = {k: plain(v) for k, v in re.findall(r'(\w+)\s*=\s*"([^"]*)"', segment)}
    element, name = start[1], at["name"]
    if element == "packageDefine":
        message = g_messages[name] = {"tid": at["tid"], "mode": at["model"], "lines": []}
    elif element == "field":
        message["lines"].append((name, at["maxOccur"], at["minOccur"]))
    elif element == "tidDefine":
        g_tids[name] = int(at["value"], 16)
    elif element == "fieldDefine":
        field = g_fields[name] = {"fid": int(at["fidValue"], 16), "items": []}
    elif element == "item":
        field["items"].append(name)
    elif element == "itemDefine":
        if name in g_items:
            differs("C", name, f"defines it twice ({g_items[name]}, {at['type']})", "once")
        g_items[name] = at["type"]
    elif element == "typeDefine":
        base, a, b = type_of(at["baseType"])
        length, precision = int(at["length"]), int(at["precision"])
        assert a in (None, length) and b in (None, precision), name
        kind = g_types[name] = {"base": base, "length": length, "precision": precision, "values": []}
    elif element == "enumValue":
        kind["values"].append(int(name))

# --- Appendices A to E and Table 7: rows of tables, parted by '|'. ---


def rows(first, last):
    """The rows between two headings, without the heads of the tables."""
    part = text[text.index(first):]
    for line in part[:part.index(last)].splitlines():
        if not line.startswith("|"):
            continue
        cells = [plain(re.sub(r"</?b>|<br ?/?>", "", cell)) for cell in line.strip().strip("|").split("|")]
        if not set("".join(cells)) <= set("-:"):
            yield cells


a_tids = {name: int(value, 16) for name, value in rows("表 A.1", "附 录 B") if name.startswith("TID_")}

b_types = {}
for name, base, length, precision, _, values in rows("表 B.1", "附 录 C"):
    if name.startswith("FTD"):
        base, a, b = type_of(base)
        assert a in (None, int(length)) and b in (None, int(precision)), name
        values = [int(v) for v in re.findall(r"(\d+)->?", values)]
        if values and base != "FTDCharType":
            differences.append(f"B: {name}: lists values {values} of {base}; a list binds Char types only, not taken")
            values = []
        b_types[name] = {"base": base, "length": int(length), "precision": int(precision), "values": values}

c_items = {cells[0]: cells[1] for cells in rows("表 C.1", "附 录 D") if cells[1].startswith("FTD")}

d_fields = {}
for name, _, fid_name, fid, item, _ in rows("表 D.1", "附 录 E"):
    if fid.startswith("0x"):
        assert fid_name == "FID_" + name and item == "", name
        field = d_fields[name] = {"fid": int(fid, 16), "items": []}
    elif name == "":
        field["items"].append(item)

e_messages = {}
for name, _, field, _, most, least in rows("表 E.1", "**附 录 F**"):
    if name and not field:
        lines = e_messages[name] = []
    elif field and not name:
        lines.append((field, most, least))

directions = []  # name, up, TID
for cells in rows("表7 报文清单列表", "4.5.2 报文功能说明"):
    if cells[-1].startswith("TID_"):
        for name, up in (cells[1], True), (cells[3], False):
            if name and (name, up, cells[-1]) not in directions:
                directions.append((name, up, cells[-1]))

# --- The comparison; A to E decide. ---


def near(name, names):
    """The name in `names` that is meant: the same one, else the same but for case, else the only one a letter away."""
    if name in names:
        return name
    found = [n for n in names if n.lower() == name.lower()]
    if not found:
        def less(word):
            return {word[:i] + word[i + 1:] for i in range(len(word))}
        found = [n for n in names if n in less(name) or name in less(n)]
    assert len(found) == 1, (name, found)
    return found[0]


def compare(place, g, decided):
    for name in sorted(set(g) | set(decided)):
        one, other = g.get(name, "lacks it"), decided.get(name, "nothing")
        if isinstance(one, dict) and isinstance(other, dict):
            keys = [k for k in one if one[k] != other[k]]
            one, other = {k: one[k] for k in keys}, {k: other[k] for k in keys}
        if one != other:
            differs(place, name, one, other)


compare("A", g_tids, a_tids)
compare("B", g_types, b_types)
compare("E", {n: m["lines"] for n, m in g_messages.items()}, e_messages)
compare("4.5.1", {n: m["tid"] for n, m in g_messages.items()}, {n: tid for n, _, tid in directions})
for name in c_items:
    meant = near(name, g_items)
    if meant != name:
        differs("C", name, f"writes {meant}", name)
    if g_items[meant] != c_items[name]:
        differs("C", name, g_items[meant], c_items[name])
assert len(c_items) == len(g_items)
for name in sorted(set(g_fields) | set(d_fields)):
    g, d = g_fields.get(name), d_fields.get(name)
    if g is None or d is None or g["fid"] != d["fid"] or len(g["items"]) != len(d["items"]):
        differs("D", name, g, d)
    else:
        for in_g, in_d in zip(g["items"], d["items"]):
            if in_g != in_d:
                differs("D", f"item of {name}", in_g, in_d)
for name in sorted({i for f in d_fields.values() for i in f["items"]} - set(c_items)):
    differences.append(f"D against C: {name}: C writes {near(name, c_items)}")

# --- Kinds of items, and the output. ---


def kind_of(item):
    """The kind and width of an item, as words of src/items.rs."""
    name, length, precision = type_of(c_items[near(item, c_items)])
    values = []
    if name in b_types:
        t = b_types[name]
        if name == "FTDDate":
            return "Date", 8
        name, length, precision, values = t["base"], t["length"], t["precision"], t["values"]
    if name == "FTDCharType":
        return (f"Char(&{sorted(values)})" if values else "Char(&[])"), 1
    if name == "FTDWordType":
        return "Word", 2
    if name == "FTDIntType":
        return "Int", 4
    if name == "FTDStringType":
        return f"Text({length})", length
    if name == "FTDNumberType":
        return f"Number({length})", length
    assert name == "FTDFloatType" and precision, item
    return f"Float({length}, {precision})", length


MODES = {"dialog": "Dialog", "private": "Private", "broadcast": "Broadcast", "none": "Management"}
modes = {}
for message in g_messages.values():
    assert modes.setdefault(message["tid"], MODES[message["mode"]]) == MODES[message["mode"]]

fields = sorted((f["fid"], name, f["items"]) for name, f in d_fields.items())
messages = sorted((a_tids[tid], up, name) for name, up, tid in directions)
lines = sum(len(m) for m in e_messages.values())
items = sum(len(i) for _, _, i in fields)
widths = sum(kind_of(i)[1] for _, _, names in fields for i in names)
assert sorted(e_messages) == sorted(n for _, _, n in messages)
totals = (f"{len(fields)} fields, {items} items, {widths} bytes, {len(a_tids)} TIDs, {len(messages)} messages "
          f"({sum(up for _, up, _ in messages)} up, {sum(not up for _, up, _ in messages)} down), {lines} field lines")

out = ["// Made by tables.py from the text of JR/T 0016-2004. Don't edit.",
       f"// {totals}.", "",
       "use crate::items::Kind::*;",
       "use crate::items::{Field, Item};",
       "use crate::makeup::Direction::*;",
       "use crate::makeup::{Line, Message, Mode::*, Tid};", "",
       "/// Appendix A, by number.",
       f"pub static TIDS: [Tid; {len(a_tids)}] = ["]
for number, name in sorted((n, name) for name, n in a_tids.items()):
    out.append(f'    Tid {{ number: 0x{number:04X}, name: "{name[4:]}", mode: {modes[name]} }},')
out += ["];", "", "/// Appendix D with the types of B and C, by FID.", f"pub static FIELDS: [Field; {len(fields)}] = ["]
for fid, name, names in fields:
    out.append(f'    Field {{ fid: 0x{fid:04X}, name: "{name}", width: {sum(kind_of(i)[1] for i in names)}, items: &[')
    place = 0
    for item in names:
        kind, width = kind_of(item)
        out.append(f'        Item {{ name: "{item}", at: {place}, width: {width}, kind: {kind} }},')
        place += width
    out.append("    ] },")
out += ["];", "", "/// The most lines that a message has.",
        f"pub const MOST_LINES: usize = {max(len(m) for m in e_messages.values())};",
        "", "/// Appendix E with the directions of Table 7, by TID and direction (Down before Up).",
        f"pub static MESSAGES: [Message; {len(messages)}] = ["]
for tid, up, name in messages:
    out.append(f'    Message {{ tid: 0x{tid:04X}, direction: {"Up" if up else "Down"}, name: "{name}", lines: &[')
    for field, most, least in e_messages[name]:
        most = "None" if most == "任意" else f"Some({int(most)})"
        out.append(f'        Line {{ fid: 0x{d_fields[field]["fid"]:04X}, least: {int(least)}, most: {most} }},')
    out.append("    ] },")
out.append("];")
print("\n".join(out))
print("\n".join(differences), totals, sep="\n", file=sys.stderr)
