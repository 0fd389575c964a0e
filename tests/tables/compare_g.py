#!/usr/bin/env python3
"""Compares Appendices A to E (read by appendices.py) with the XML of Appendix G in the same text.

    compare_g.py STANDARD.txt              all differences, as text
    compare_g.py STANDARD.txt --markdown   the same as tables for a reader

G's XML is damaged in the text (code fences at page ends, '<' unescaped, 'FTDStringType<100;', a closing quote
missing in six places, 'TID\\_..'), so it is read by a small reader of its own and not by an XML parser. What is damaged
is counted and listed too. Every tag of G must be read, or the script stops.
"""
import difflib
import re
import sys

import appendices as app
from appendices import need, squeeze

TAGS = ("packageDefine", "field", "tidDefine", "fieldDefine", "item", "itemDefine", "typeDefine", "enumValue")
PLAIN = ("ftd", "packages", "tids", "fields", "items", "types")
ATTRS = {"packageDefine": ("name", "tid", "model"), "field": ("name", "maxOccur", "minOccur"),
         "tidDefine": ("name", "value"), "fieldDefine": ("name", "fid", "fidValue"), "item": ("name",),
         "itemDefine": ("name", "type"), "typeDefine": ("name", "baseType"), "enumValue": ("name",)}


def read_g(path):
    with open(path, encoding="utf-8") as f:
        every = f.read().split("\n")
    at = app.heading(every, "G")
    start = next(n for n in range(at, len(every) + 1) if every[n - 1].strip().startswith("<ftd>"))
    noise = {"code fences": [], "closing quote missing": [], "escaped underscore": [], "type written <n;": []}
    text, where = [], []                        # characters of G without fences, and the line of each
    for n in range(start, len(every) + 1):
        line = every[n - 1]
        if line.strip() == "```":
            noise["code fences"].append(n)
            continue
        if "\\_" in line:
            noise["escaped underscore"].append(n)
            line = line.replace("\\_", "_")
        for c in line + "\n":
            text.append(c)
            where.append(n)
    text = "".join(text)
    p, stack, tags = 0, [], []
    word = re.compile(r"\s*<(/?)([A-Za-z]+)")
    # a value ends at its quote, or (quote missing) before '/>' that ends its line and is followed by a tag
    attr = re.compile(r'\s*([A-Za-z]+)="((?:(?!/>\n\s*<)[^"])*)("?)')
    while text[p:].strip():
        m = word.match(text, p)
        need(m, "G, line", where[p], "is not understood:", repr(text[p:p + 60]))
        closing, name = m.groups()
        line = where[m.start(2)]
        need(name in TAGS + PLAIN, "G, line", line, "tag", name)
        p, attrs = m.end(), {}
        while True:
            a = attr.match(text, p)
            if not a:
                break
            need(a.group(1) not in attrs, "G, line", line, "attribute twice")
            if not a.group(3):
                noise["closing quote missing"].append(line)
            attrs[a.group(1)] = a.group(2)
            p = a.end()
        e = re.compile(r"\s*(/?)>").match(text, p)
        need(e, "G, line", line, "tag does not end:", repr(text[p:p + 40]))
        p = e.end()
        if closing:
            need(not attrs and stack and stack[-1]["tag"] == name, "G, line", line, "closes", name)
            stack.pop()
            continue
        for k in ATTRS.get(name, ()):
            need(k in attrs, "G, line", line, name, "lacks", k)
        tag = {"tag": name, "line": line, "attrs": attrs, "parent": stack[-1]["tag"] if stack else None, "inner": []}
        if stack:
            stack[-1]["inner"].append(tag)
        tags.append(tag)
        if not e.group(1):
            stack.append(tag)
    need(not stack, "G: not closed:", [t["tag"] for t in stack])
    # as many tags as a plain count of '<name' gives
    for name in TAGS + PLAIN:
        rough = len(re.findall(r"<%s[\s>]" % name, text))
        need(rough == sum(t["tag"] == name for t in tags), "G: count of", name, rough)

    def base(t, key, line):
        v = t.replace("&lt;", "<").replace("&gt;", ">")
        if re.search(r"<\d+;$", v):
            noise["type written <n;"].append(line)
            v = v[:-1] + ">"
        return v

    def kids(tag, kind):
        need(all(k["tag"] == kind for k in tag["inner"]), "G, line", tag["line"], "holds another tag")
        return tag["inner"]

    g = {"noise": noise, "tags": tags, "messages": [], "tids": [], "fields": [], "items": [], "types": []}
    for t in tags:
        a = t["attrs"]
        says = a.get("comment", "").replace("&#47;", "/")
        if t["tag"] == "packageDefine":
            g["messages"].append({"line": t["line"], "name": a["name"], "tid_name": a["tid"], "model": a["model"],
                                  "explanation": says,
                                  "fields": [{"line": k["line"], "name": k["attrs"]["name"],
                                              "most": k["attrs"]["maxOccur"], "least": k["attrs"]["minOccur"],
                                              "explanation": k["attrs"].get("comment", "")} for k in kids(t, "field")]})
        elif t["tag"] == "tidDefine":
            g["tids"].append({"line": t["line"], "name": a["name"], "tid": int(a["value"], 16)})
        elif t["tag"] == "fieldDefine":
            g["fields"].append({"line": t["line"], "name": a["name"], "fid_name": a["fid"],
                                "fid": int(a["fidValue"], 16), "explanation": says,
                                "rows": [{"line": k["line"], "item": k["attrs"]["name"],
                                          "explanation": k["attrs"].get("comment", "").replace("&#47;", "/")}
                                         for k in kids(t, "item")]})
        elif t["tag"] == "itemDefine":
            g["items"].append({"line": t["line"], "name": a["name"], "type": base(a["type"], "type", t["line"]),
                               "explanation": says})
        elif t["tag"] == "typeDefine":
            g["types"].append({"line": t["line"], "name": a["name"], "base": base(a["baseType"], "base", t["line"]),
                               "length": a.get("length"), "precision": a.get("precision"), "format": says,
                               "enumeration": [int(k["attrs"]["name"]) for k in kids(t, "enumValue")],
                               "meanings": [k["attrs"].get("comment", "") for k in kids(t, "enumValue")]})
    return g


def moved(ours, theirs):
    """Names that are in both lists but in another relative order (those outside difflib's common runs)."""
    both = [x for x in ours if x in theirs]
    other = list(dict.fromkeys(x for x in theirs if x in ours))
    same = set()
    for b in difflib.SequenceMatcher(None, both, other, autojunk=False).get_matching_blocks():
        same |= set(both[b.a:b.a + b.size])
    return [x for x in other if x not in same]


def compare(std, g):
    """List of (group, what, A to E with line, G with line). Groups: matter, spelling, order, words."""
    out = []

    def diff(group, what, ours, oline, theirs, gline):
        out.append((group, what, "%s%s" % (ours, " (line %s)" % oline if oline else ""),
                    "%s%s" % (theirs, " (line %s)" % gline if gline else "")))

    def words(what, ours, oline, theirs, gline):
        if squeeze(ours) != squeeze(theirs):
            diff("words", what, ours, oline, squeeze(theirs), gline)

    def pair(what, ours, theirs, key):
        """Pairs by name; names that differ only in the case of letters, or by one letter, are paired as spellings."""
        o, t = {x[key]: x for x in ours}, {}
        for x in theirs:
            if x[key] in t:
                diff("matter", "%s %s is defined twice in G" % (what, x[key]), "once", o[x[key]]["line"] if x[key] in o else "",
                     "twice", "%s and %s" % (t[x[key]]["line"], x["line"]))
            else:
                t[x[key]] = x
        pairs = [(o[k], t[k]) for k in o if k in t]
        left, right = [k for k in o if k not in t], [k for k in t if k not in o]
        for k in left:
            near = [r for r in right if r.lower() == k.lower()] or difflib.get_close_matches(k, right, 1, 0.9)
            if near:
                right.remove(near[0])
                diff("spelling", "%s, name" % what, k, o[k]["line"], near[0], t[near[0]]["line"])
                pairs.append((o[k], t[near[0]]))
            else:
                diff("matter", "%s missing in G" % what, k, o[k]["line"], "-", "")
        for k in right:
            diff("matter", "%s only in G" % what, "-", "", k, t[k]["line"])
        ms = moved([x[key] for x in ours], [x[key] for x in theirs])
        if ms:
            diff("order", "order of the %ss (of the definitions, not of rows)" % what, "%d in A to E's order" % len(o), "",
                 "%d stand elsewhere: %s" % (len(ms), ", ".join(ms)), "")
        return pairs

    for a, b in pair("TID", std["tids"], g["tids"], "name"):
        if a["tid"] != b["tid"]:
            diff("matter", "TID %s" % a["name"], hex(a["tid"]), a["line"], hex(b["tid"]), b["line"])

    for a, b in pair("type", std["types"], g["types"], "name"):
        base, tag = a["printed_base"], "type " + a["name"]
        if base != b["base"]:
            lost = re.sub(r"<.*", "", base) == b["base"]
            diff("noise" if lost else "matter", tag + ", base", base, a["line"],
                 b["base"] + (", no length in the base (the length attribute has it)" if lost else ""), b["line"])
        if str(a["width"]) != b["length"]:
            diff("matter", tag + ", length", a["width"], a["line"], b["length"], b["line"])
        if str(a["decimals"]) != b["precision"]:
            diff("matter", tag + ", precision", a["decimals"], a["line"], b["precision"], b["line"])
        listed = app.enumeration(a["range"])
        if [v for v, _ in listed] != b["enumeration"]:
            diff("matter", tag + ", values", [v for v, _ in listed], a["line"], b["enumeration"] or "none", b["line"])
        else:
            for (v, x), y in zip(listed, b["meanings"]):
                words("%s, meaning of %d" % (tag, v), x, a["line"], y, b["line"])
        words(tag + ", format", a["format"], a["line"], b["format"], b["line"])

    spelled = {i["printed"]: i["name"] for i in std["items"]}
    printed = [dict(i, name=i["printed"]) for i in std["items"]]
    for a, b in pair("item", printed, g["items"], "name"):
        if a["type"] != b["type"]:
            lost = re.sub(r"<.*", "", a["type"]) == b["type"]
            diff("noise" if lost else "matter", "item %s, type" % a["name"], a["type"], a["line"],
                 b["type"] + (", no length" if lost else ""), b["line"])
        words("item %s, explanation" % a["name"], a["explanation"], a["line"], b["explanation"], b["line"])

    for a, b in pair("field", std["fields"], g["fields"], "name"):
        if (a["fid"], a["fid_name"]) != (b["fid"], b["fid_name"]):
            diff("matter", "field %s, FID" % a["name"], hex(a["fid"]), a["line"], hex(b["fid"]), b["line"])
        words("field %s, explanation" % a["name"], a["explanation"], a["line"], b["explanation"], b["line"])
        if len(a["rows"]) != len(b["rows"]):
            diff("matter", "field %s, number of rows" % a["name"], len(a["rows"]), a["line"], len(b["rows"]), b["line"])
        for i, (x, y) in enumerate(zip(a["rows"], b["rows"])):
            if x["item"] != y["item"]:
                near = x["item"].lower() == y["item"].lower() or difflib.get_close_matches(x["item"], [y["item"]], 1, 0.9)
                diff("spelling" if near else "matter", "field %s, row %d" % (a["name"], i), x["item"], x["line"],
                     y["item"], y["line"])
            words("field %s, row %d %s, explanation" % (a["name"], i, x["item"]), x["explanation"], x["line"],
                  y["explanation"], y["line"])

    modes = {"management": "none", "dialog": "dialog", "private": "private", "broadcast": "broadcast"}
    for a, b in pair("message", std["messages"], g["messages"], "name"):
        if a["tid_name"] != b["tid_name"]:
            diff("matter", "message %s, TID" % a["name"], a["tid_name"], a["line"], b["tid_name"], b["line"])
        if [modes[m] for m in a["modes"]] != [b["model"]]:
            diff("matter", "message %s, mode" % a["name"], "Table 7: " + " and ".join(a["modes"]),
                 " and ".join(map(str, a["table7_lines"])), b["model"], b["line"])
        words("message %s, explanation" % a["name"], a["explanation"], a["line"], b["explanation"], b["line"])
        if len(a["fields"]) != len(b["fields"]):
            diff("matter", "message %s, number of fields" % a["name"], len(a["fields"]), a["line"], len(b["fields"]),
                 b["line"])
        for i, (x, y) in enumerate(zip(a["fields"], b["fields"])):
            if x["name"] != y["name"]:
                diff("matter", "message %s, field %d" % (a["name"], i), x["name"], x["line"], y["name"], y["line"])
            most = app.UNLIMITED if x["most"] is None else str(x["most"])
            if (str(x["least"]), most) != (y["least"], y["most"]):
                diff("matter", "message %s, field %s, least and most" % (a["name"], x["name"]),
                     (x["least"], most), x["line"], (y["least"], y["most"]), y["line"])
            words("message %s, field %s, explanation" % (a["name"], x["name"]), x["explanation"], x["line"],
                  y["explanation"], y["line"])

    # G in itself
    names = {i["name"] for i in g["items"]}
    for f in g["fields"]:
        for r in f["rows"]:
            if r["item"] not in names:
                diff("spelling", "G in itself: field %s names an item that G does not define" % f["name"], "-", "",
                     r["item"], r["line"])
    # what G would give as widths of the fields
    width = {t["name"]: int(t["length"]) for t in g["types"]}
    item = {}
    for i in g["items"]:
        b = app.basic_type(i["type"], std["table6"]) if "<" in i["type"] or re.match(r"FTD(Char|Word|Int)Type", i["type"]) else None
        item[i["name"].lower()] = width.get(i["type"], b[1] if b else None)
    # (G's own slip, in this estimate only: its fields name VolumeTotalOrginal, its items VolumeTotalOriginal)
    item["volumetotalorginal"] = item.get("volumetotaloriginal")
    for a in std["fields"]:
        b = next(f for f in g["fields"] if f["name"] == a["name"])
        ws = [item[r["item"].lower()] for r in b["rows"]]
        lost = [r["item"] for r, w in zip(b["rows"], ws) if w is None]
        theirs = sum(w or 0 for w in ws) + sum(r["width"] for r, w in zip(a["rows"], ws) if w is None)
        if theirs != a["width"]:
            diff("widths", "field %s, bytes in all" % a["name"], a["width"], a["line"],
                 "%d%s" % (theirs, " with A to E's length for %s" % ", ".join(lost) if lost else ""), b["line"])
    return out


GROUPS = [("matter", "Differences of substance"), ("widths", "What they would do to the fields' widths"),
          ("spelling", "Spellings"), ("order", "Order of definitions"),
          ("noise", "Lengths that G's text does not print (damage of the text or of G; no contradiction)"),
          ("words", "Explanations and formats (Chinese words; no effect on the tables)")]


def main(args):
    try:
        std = app.read_standard(args[0])
        g = read_g(args[0])
        res = compare(std, g)
    except app.Bad as e:
        print("NOT READ:", e, file=sys.stderr)
        return 1
    md = args[1:] == ["--markdown"]
    print("G: %d messages with %d fields, %d TIDs, %d fields with %d rows, %d items, %d types with %d values"
          % (len(g["messages"]), sum(len(m["fields"]) for m in g["messages"]), len(g["tids"]), len(g["fields"]),
             sum(len(f["rows"]) for f in g["fields"]), len(g["items"]), len(g["types"]),
             sum(len(t["enumeration"]) for t in g["types"])))
    print()
    print("Damage of G's text, read as if whole: " + "; ".join("%s: %d%s" % (
        k, len(v), "" if k == "code fences" else " (lines %s)" % ", ".join(map(str, v))) for k, v in g["noise"].items()))
    for key, title in GROUPS:
        some = [r for r in res if r[0] == key]
        print()
        print(("### " if md else "== ") + "%s: %d" % (title, len(some)))
        print()
        if md and some:
            print("| What | A to E | G |\n|---|---|---|")
        for _, what, a, b in some:
            if md:
                print("| %s | %s | %s |" % tuple(x.replace("|", "\\|").replace("<", "&lt;") for x in (what, a, b)))
            else:
                print("%s\n    A to E: %s\n    G:      %s" % (what, a, b))
    return 0


if __name__ == "__main__":
    sys.exit(main(sys.argv[1:]))
