#!/usr/bin/env python3
"""Transcribes Appendices A to E of JR/T 0016-2004 (FTD) from the text of the standard.

    appendices.py STANDARD.txt                 checks and counts
    appendices.py STANDARD.txt --json FILE     the tables as JSON as well ('-' is standard output)
    appendices.py STANDARD.txt --rattle        all tables as columns and lines, which recount.py reads back
    appendices.py STANDARD.txt --markdown      counts, corrections, types and fields for a reader

Read are, by their own table rows: Table 6 (basic types), Table 7 (who sends which message, under which TID
name, in which mode), and the tables A.1, B.1, C.1, D.1 and E.1. The text is cut at the heading of Appendix F
before anything is read, so that nothing can come from Appendix G (compare_g.py reads that one).

Columns are found by the titles in each table's head, not by position: 'most' before 'least' in E.1 is thus the
paper's own statement. A line of a table that is not understood stops the script; nothing is skipped silently.
"""
import json
import re
import sys

# ---------------------------------------------------------------------------------------------------------------
# Corrections: the only data typed in by hand. Each is applied at its line only, and only if the line holds the
# printed word. All four change a spelling in Appendix C, so that an item of C is found under the name that D uses.
# D's own rows keep their spelling. The explanation (字段说明) is the same in C and D for each of them, which
# the script checks for every row of D.
# (line, table, printed, read as, reason)
CORRECTIONS = [
    (1343, "C.1", "BroadcastLogOutTime", "BroadcastLogoutTime",
     "spelling: D (line 2072) has BroadcastLogoutTime; C itself spells the sisters DialogLogoutTime (1384) and "
     "PrivateLogoutTime (1476); same explanation 最后一次广播模式退出时间"),
    (1398, "C.1", "FuseLimit", "Fuselimit",
     "spelling: D (line 1668) has Fuselimit; same explanation 熔断限额"),
    (1545, "C.1", "VolumeTotalOrginal", "VolumeTotalOriginal",
     "spelling: D (lines 1778, 1799) and 4.4.3.1 (line 839) have VolumeTotalOriginal; same explanation "
     "原始总申报数量(以手为单位)"),
    (1556, "C.1", "YdSellISpecPosition", "YdSellSpecPosition",
     "OCR or spelling: D (lines 1842, 1884) and 4.4.1.3 (line 719) have YdSellSpecPosition; same explanation "
     "前卖持仓量(投)"),
]

# Readings, not corrections (document 01, "Typed items"):
DATE_TYPES = {"FTDDate"}      # the one type read as Date; its format column must be YYYYMMDD and no other type's may
UNLIMITED = "任意"
MOST_UNLIMITED = 65535        # how --rattle writes "unlimited"
FIELD_LIMIT = 4074            # 4,080 content bytes less FID and length

# ---------------------------------------------------------------------------------------------------------------
# Text and tables


class Bad(Exception):
    pass


def need(ok, *words):
    if not ok:
        raise Bad(" ".join(str(w) for w in words))


def clean(cell):
    """A cell without bold marks, line breaks and escapes. Blanks inside are kept, single."""
    cell = re.sub(r"<br\s*/?>", "", cell)          # a break inside a word of a narrow column
    cell = re.sub(r"</?b>", "", cell)
    cell = cell.replace("&lt;", "<").replace("&gt;", ">").replace("\\_", "_")
    cell = cell.replace("**", "")
    need("&" not in cell, "escape left in", repr(cell))
    return re.sub(r"\s+", " ", cell).strip()


def squeeze(text):
    """For comparing Chinese explanations: no blanks, half-width brackets and commas."""
    text = re.sub(r"\s+", "", text)
    for a, b in (("（", "("), ("）", ")"), ("，", ","), ("：", ":")):
        text = text.replace(a, b)
    return text


def heading(lines, letter):
    """The number (from 1) of the line that is the heading of an appendix."""
    hits = [n for n, l in enumerate(lines, 1) if re.sub(r"[\s*#]", "", l) == "附录" + letter]
    need(len(hits) == 1, "heading of Appendix", letter, "found at", hits)
    return hits[0]


def table(lines, start, stop, caption, titles, prose=()):
    """All rows of one table, pages joined: list of (line number, {title: cell}).

    Between start and stop (exclusive) there may be only: blank lines, captions of this table, its heads, the dashes
    under a head, rows with as many cells as the head, and the prose lines given."""
    rows, head, dashes = [], None, False
    captions = 0
    for n in range(start, stop):
        line = lines[n - 1].rstrip()
        if not line.strip():
            head = None
            continue
        if line.startswith("|"):
            need(line.endswith("|"), "line", n, "does not end its row")
            cells = [clean(c) for c in line[1:-1].split("|")]
            if head is None:
                need(cells == titles, "line", n, "head is", cells, "and not", titles)
                head, dashes = cells, True
            elif dashes:
                need(all(re.fullmatch(r"-+", c) for c in cells) and len(cells) == len(titles), "line", n, "dashes")
                dashes = False
            else:
                need(len(cells) == len(titles), "line", n, "has", len(cells), "cells")
                rows.append((n, dict(zip(titles, cells))))
            continue
        need(head is None, "line", n, "breaks a table:", line)
        flat = re.sub(r"[\s#*]", "", line)
        if re.fullmatch(r"表" + re.escape(caption[0]) + r"([(（]续[)）])?" + re.escape(caption[1]), flat):
            captions += 1
            continue
        need(flat in prose, "line", n, "is not understood:", line)
    need(captions > 0 and rows, "no table", caption)
    return rows, captions


# ---------------------------------------------------------------------------------------------------------------
# Table 6 and types

BASE = re.compile(r"FTD(Char|Word|Int|String|Number|Float)Type(?:<(\d+)(?:,(\d+))?>)?")
FORMAL = re.compile(r"FTD(Char|Word|Int|String|Number|Float)Type(?:<(a)(?:,(b))?>)?")


def read_table6(lines, stop):
    start = [n for n in range(1, stop) if re.sub(r"\s", "", lines[n - 1]) == "表6基本类型表"]
    need(len(start) == 1, "Table 6 at", start)
    end = next(n for n in range(start[0] + 1, stop) if lines[n - 1].startswith("所有的衍生类型"))
    rows, _ = table(lines, start[0], end, ("6", "基本类型表"),
                    ["基本类型名", "类型说明", "长度", "精度", "对齐", "初始化"])
    out = {}
    for n, r in rows:
        m = FORMAL.fullmatch(r["基本类型名"])
        need(m, "line", n, r)
        kind, a, b = m.groups()
        need(kind not in out, "line", n, "again", kind)
        if a:
            need(r["长度"] == "a" and r["精度"] == (b or ""), "line", n, r)
        else:
            need(r["长度"].isdigit() and r["精度"] == "", "line", n, r)
        out[kind] = {"line": n, "width": None if a else int(r["长度"]), "formals": [x for x in (a, b) if x],
                     "align": r["对齐"], "initial": r["初始化"]}
    need(sorted(out) == ["Char", "Float", "Int", "Number", "String", "Word"], "Table 6 has", sorted(out))
    return out


def basic_type(text, table6):
    """Reads 'FTDStringType<80>' and the like: (kind, width, decimals)."""
    m = BASE.fullmatch(text)
    if not m:
        return None
    kind, a, b = m.groups()
    t6 = table6[kind]
    need(len([x for x in (a, b) if x]) == len(t6["formals"]), "numbers of", text)
    width = int(a) if a else t6["width"]
    decimals = int(b) if b else 0
    need(width > 0 and decimals < width, text)
    return kind, width, decimals


ENUM = re.compile(r"(?:^|[,，])\s*(\d+)\s*-\s*>?\s*")


def enumeration(text):
    """'0->删除,1->挂起' or '0- 开仓, 1- 平仓': [(0, 删除), ..]; [] if the text is no such list."""
    hits = list(ENUM.finditer(text))
    if not hits or hits[0].start() != 0:
        return []
    out = []
    for h, nxt in zip(hits, hits[1:] + [None]):
        meaning = text[h.end():nxt.start() if nxt else len(text)].strip()
        need(meaning, "empty meaning in", text)
        out.append((int(h.group(1)), meaning))
    need(len({v for v, _ in out}) == len(out), "value twice in", text)
    need(all(v < 256 for v, _ in out), "value above a byte in", text)
    # every number followed by a dash was taken
    need(len(re.findall(r"\d+\s*-", text)) == len(out), "a value was missed in", text)
    return out


# ---------------------------------------------------------------------------------------------------------------
# The appendices


def correct(n, tab, word, used):
    for c in CORRECTIONS:
        if c[0] == n and c[1] == tab:
            need(word == c[2], "correction at line", n, "expects", c[2], "but finds", word)
            used.add(c)
            return c[3]
    return word


def read_standard(path):
    with open(path, encoding="utf-8") as f:
        every = f.read().split("\n")
    at = {x: heading(every, x) for x in "ABCDEFG"}
    need([at[x] for x in "ABCDEFG"] == sorted(at.values()), "order of appendices", at)
    lines = every[:at["F"] - 1]                    # nothing of F and G can be read below
    used = set()
    std = {"at": at, "lines": lines}
    std["table6"] = t6 = read_table6(lines, at["A"])

    # Table 7 (4.5.1): messages that the member sends, messages that the exchange sends, TID name, mode by heading
    start = [n for n in range(1, at["A"]) if re.sub(r"\s", "", lines[n - 1]) == "表7报文清单列表"]
    need(len(start) == 1, "Table 7 at", start)
    stop = next(n for n in range(start[0] + 1, at["A"]) if lines[n - 1].startswith("4.5.2"))
    titles = ["要求", "会员发出报文名", "会员发出报文说明", "交易所发出报文名", "交易所发出报文说明", "信息正文类型"]
    rows, _ = table(lines, start[0], stop, ("7", "报文清单列表"), titles)
    modes = {"数据流管理报文": "management", "对话模式报文": "dialog", "私有模式报文": "private", "广播模式报文": "broadcast"}
    mode, group, sent = None, None, []
    for n, r in rows:
        rest = [r[t] for t in titles[1:]]
        if not any(rest):
            if r["要求"] in modes:
                mode, group = modes[r["要求"]], None
            else:
                group = r["要求"]
            continue
        need(r["要求"] in ("要求", "可选") and mode, "line", n, r)
        need(re.fullmatch(r"TID_[A-Za-z]+", r["信息正文类型"]), "line", n, r)
        need(r["交易所发出报文名"], "line", n, "has no message of the exchange")
        for direction, name, says in (("up", "会员发出报文名", "会员发出报文说明"),
                                      ("down", "交易所发出报文名", "交易所发出报文说明")):
            need(bool(r[name]) == bool(r[says]), "line", n, r)
            if r[name]:
                need(re.fullmatch(r"[A-Za-z]+", r[name]), "line", n, r)
                sent.append({"line": n, "message": r[name], "explanation": r[says], "direction": direction,
                             "tid_name": r["信息正文类型"], "mode": mode, "group": group,
                             "required": r["要求"] == "要求"})
    std["table7"] = sent

    # A: TID names and values
    rows, pages = table(lines, at["A"] + 1, at["B"], ("A.1", "信息正文类型值表"), ["信息正文类型编号", "信息正文类型值"],
                        ("(规范性附录)", "信息类型正文值", "信息正文类型值见表A.1中的定义。"))
    tids = []
    for n, r in rows:
        need(re.fullmatch(r"TID_[A-Za-z]+", r["信息正文类型编号"]), "line", n, r)
        need(re.fullmatch(r"0x[0-9A-F]{4}", r["信息正文类型值"]), "line", n, r)
        tids.append({"line": n, "name": r["信息正文类型编号"], "tid": int(r["信息正文类型值"], 16)})
    std["tids"], std["pages_A"] = tids, pages

    # B: derived types
    titles = ["衍生类型名称", "基本类型", "长度", "精度", "格式", "取值范围"]
    rows, pages = table(lines, at["B"] + 1, at["C"], ("B.1", "衍生类型表"), titles,
                        ("(规范性附录)", "衍生类型明细", "衍生类型明细信息见表B.1。"))
    types, ignored = [], []
    for n, r in rows:
        name = r["衍生类型名称"]
        need(re.fullmatch(r"FTD[A-Za-z]+", name), "line", n, r)
        got = basic_type(r["基本类型"], t6)
        need(got, "line", n, "base type", r["基本类型"])
        kind, width, decimals = got
        need(r["长度"] == str(width), "line", n, "length", r["长度"], "against", r["基本类型"])
        need(r["精度"] == str(decimals), "line", n, "precision", r["精度"], "against", r["基本类型"])
        values = enumeration(r["取值范围"])
        basic, enum = kind, None
        if kind == "Char":
            need(values, "line", n, "a Char type of B without values")
            enum = values
        elif values:
            ignored.append({"line": n, "type": name, "text": r["取值范围"]})
        if name in DATE_TYPES:
            need(kind == "String" and width == 8 and r["格式"] == "YYYYMMDD", "line", n, r)
            basic = "Date"
        else:
            need(r["格式"] != "YYYYMMDD", "line", n, "another date", r)
        types.append({"line": n, "name": name, "printed_base": r["基本类型"], "basic": basic, "width": width,
                      "decimals": decimals, "enumeration": None if enum is None else [v for v, _ in enum],
                      "meanings": None if enum is None else [m for _, m in enum],
                      "format": r["格式"], "range": r["取值范围"]})
    std["types"], std["ignored_enumerations"], std["pages_B"] = types, ignored, pages
    by_type = {t["name"]: t for t in types}
    need(len(by_type) == len(types), "a type of B is there twice")

    # C: items
    rows, pages = table(lines, at["C"] + 1, at["D"], ("C.1", "字段明细表"), ["字段名称", "字段类型", "字段说明"],
                        ("(规范性附录)", "字段明细", "字段明细信息见表C.1。"))
    items = []
    for n, r in rows:
        name = correct(n, "C.1", r["字段名称"], used)
        need(re.fullmatch(r"[A-Za-z]+", name), "line", n, r)
        tname = r["字段类型"]
        if tname in by_type:
            t = by_type[tname]
            what = {k: t[k] for k in ("basic", "width", "decimals", "enumeration")}
        else:
            got = basic_type(tname, t6)
            need(got, "line", n, "type", tname, "is neither in B nor in Table 6")
            what = dict(zip(("basic", "width", "decimals"), got), enumeration=None)
        items.append(dict({"line": n, "name": name, "printed": r["字段名称"], "type": tname,
                           "explanation": r["字段说明"]}, **what))
    std["items"], std["pages_C"] = items, pages
    by_item = {i["name"]: i for i in items}
    need(len(by_item) == len(items), "an item of C is there twice")

    # D: data fields
    titles = ["域名称", "域说明", "域编号", "域编号值", "字段名称", "字段说明"]
    rows, pages = table(lines, at["D"] + 1, at["E"], ("D.1", "数据域内容清单"), titles,
                        ("(规范性附录)", "数据域内容清单", "数据域内容的清单见表D.1。"))
    fields = []
    for n, r in rows:
        first, last = [r[t] for t in titles[:4]], [r[t] for t in titles[4:]]
        if all(first) and not any(last):
            need(re.fullmatch(r"[A-Za-z]+Field", first[0]) and first[2] == "FID_" + first[0], "line", n, first)
            need(re.fullmatch(r"0x[0-9A-F]{4}", first[3]), "line", n, first)
            fields.append({"line": n, "name": first[0], "explanation": first[1], "fid_name": first[2],
                           "fid": int(first[3], 16), "rows": []})
        else:
            need(not any(first) and all(last) and fields, "line", n, r)
            need(last[0] in by_item, "line", n, "item", last[0], "is not in C")
            i = by_item[last[0]]
            fields[-1]["rows"].append({"line": n, "item": last[0], "explanation": last[1], "type": i["type"],
                                       "basic": i["basic"], "width": i["width"], "decimals": i["decimals"],
                                       "enumeration": i["enumeration"], "item_line": i["line"]})
    for f in fields:
        need(f["rows"], f["name"], "has no rows")
        f["width"] = sum(r["width"] for r in f["rows"])
    std["fields"], std["pages_D"] = fields, pages
    by_field = {f["name"]: f for f in fields}
    need(len(by_field) == len(fields), "a field of D is there twice")

    # E: messages
    titles = ["报文名称", "报文解释", "数据域名称", "数据域解释", "最多出现次数", "最少出现次数"]
    rows, pages = table(lines, at["E"] + 1, at["F"], ("E.1", "报文内容清单"), titles,
                        ("(规范性附录)", "报文内容清单", "报文内容清单见表E.1。"))
    tid_of = {t["name"]: t["tid"] for t in tids}
    messages, empty = [], []
    for n, r in rows:
        first, last = [r[t] for t in titles[:2]], [r[t] for t in titles[2:]]
        if not any(first + last):
            empty.append(n)
        elif all(first) and not any(last):
            need(re.fullmatch(r"[A-Za-z]+", first[0]), "line", n, r)
            said = [s for s in sent if s["message"] == first[0]]
            need(said, "line", n, first[0], "is not in Table 7")
            need(len({(s["direction"], s["tid_name"]) for s in said}) == 1, "line", n, "Table 7 says", said)
            need(said[0]["tid_name"] in tid_of, "line", n, said[0]["tid_name"], "is not in A")
            messages.append({"line": n, "name": first[0], "explanation": first[1], "tid_name": said[0]["tid_name"],
                             "tid": tid_of[said[0]["tid_name"]], "direction": said[0]["direction"],
                             "modes": [s["mode"] for s in said], "table7_lines": [s["line"] for s in said],
                             "fields": []})
        else:
            need(not any(first) and all(last) and messages, "line", n, r)
            need(last[0] in by_field, "line", n, "field", last[0], "is not in D")
            most = None if r["最多出现次数"] == UNLIMITED else int(r["最多出现次数"])
            least = int(r["最少出现次数"])
            need(most is None or 0 <= least <= most, "line", n, r)
            messages[-1]["fields"].append({"line": n, "name": last[0], "explanation": last[1],
                                           "fid": by_field[last[0]]["fid"], "least": least, "most": most})
    for m in messages:
        need(m["fields"], m["name"], "has no fields")
    std["messages"], std["empty_E"], std["pages_E"] = messages, empty, pages
    need(used == set(CORRECTIONS), "a correction was not used:", set(CORRECTIONS) - used)
    return std


# ---------------------------------------------------------------------------------------------------------------
# Kinds for --rattle

KINDS = ["Char", "Word", "Int", "String", "Number", "Float", "Date"]          # 0 to 6; Char here: no enumeration


def enumerations(std):
    """The distinct enumerations (as sets) in the order of their first type in B: list of (values, type names)."""
    out = []
    for t in std["types"]:
        if t["enumeration"] is not None:
            values = sorted(t["enumeration"])
            for e in out:
                if e[0] == values:
                    e[1].append(t["name"])
                    break
            else:
                out.append((values, [t["name"]]))
    return out


def kind_of(std, thing):
    if thing["enumeration"] is not None:
        return len(KINDS) + [e[0] for e in enumerations(std)].index(sorted(thing["enumeration"]))
    return KINDS.index(thing["basic"])


# ---------------------------------------------------------------------------------------------------------------
# Checks


def checks(std):
    """List of (ok, sentence); counts are in the sentences."""
    out = []

    def say(ok, text):
        out.append((bool(ok), text))

    def twice(xs):
        return sorted({x for x in xs if xs.count(x) > 1})

    tids, types, items, fields, messages, sent = (std[k] for k in
                                                  ("tids", "types", "items", "fields", "messages", "table7"))
    rows = [(f, r) for f in fields for r in f["rows"]]
    say(True, "A: %d TIDs" % len(tids))
    say(not twice([t["tid"] for t in tids]), "A: no TID value twice: %s" % twice([t["tid"] for t in tids]))
    say(not twice([t["name"] for t in tids]), "A: no TID name twice")
    say(True, "B: %d derived types, %d of them Char with an enumeration, %d distinct enumerations"
        % (len(types), sum(t["enumeration"] is not None for t in types), len(enumerations(std))))
    say(True, "C: %d items" % len(items))
    say([i["name"] for i in items if i["name"] not in {r["item"] for _, r in rows}] == [],
        "C: every item is used in D: not used %s"
        % [i["name"] for i in items if i["name"] not in {r["item"] for _, r in rows}])
    say([t["name"] for t in types if t["name"] not in {i["type"] for i in items}] == [],
        "B: every type is used in C: not used %s"
        % [t["name"] for t in types if t["name"] not in {i["type"] for i in items}])
    say(True, "D: %d data fields, %d rows, widths add up to %d bytes"
        % (len(fields), len(rows), sum(r["width"] for _, r in rows)))
    say(not twice([f["fid"] for f in fields]), "D: each FID distinct: twice %s" % twice([f["fid"] for f in fields]))
    fids = sorted(f["fid"] for f in fields)
    say(fids == list(range(1, len(fids) + 1)), "D: the FIDs are 0x%04X to 0x%04X without a gap" % (fids[0], fids[-1]))
    say(not any(twice([r["item"] for r in f["rows"]]) for f in fields), "D: no item twice in one field")
    say(all(f["width"] == sum(r["width"] for r in f["rows"]) for f in fields),
        "D: each field's width is the sum of its rows (the paper prints no field width)")
    say(sum(f["width"] for f in fields) == sum(r["width"] for _, r in rows), "D: the fields' widths add up to the rows'")
    known = {t["name"] for t in types}
    say(all(r["type"] in known or basic_type(r["type"], std["table6"]) for _, r in rows),
        "D: each row has a type of B (%d rows) or of Table 6 (%d rows)"
        % (sum(r["type"] in known for _, r in rows), sum(r["type"] not in known for _, r in rows)))
    big = max(fields, key=lambda f: f["width"])
    over = [f["name"] for f in fields if f["width"] > FIELD_LIMIT]
    say(not over, "D: fields wider than %d bytes: %s (widest: %s, %d)" % (FIELD_LIMIT, over, big["name"], big["width"]))
    explained = {i["name"]: squeeze(i["explanation"]) for i in items}
    odd = [(r["line"], r["item"], r["explanation"]) for _, r in rows if squeeze(r["explanation"]) != explained[r["item"]]
           and not explained[r["item"]].startswith(squeeze(r["explanation"]))]
    short = [(r["line"], r["item"]) for _, r in rows if squeeze(r["explanation"]) != explained[r["item"]]
             and explained[r["item"]].startswith(squeeze(r["explanation"]))]
    say(not odd, "D: each row's explanation is C's of that item, or its beginning: otherwise %s; beginning only %s"
        % (odd, short))
    says = {}
    for i in items:
        says.setdefault(squeeze(i["explanation"]), []).append(i["name"])
    say(True, "C: items that share an explanation: %s" % [v for v in says.values() if len(v) > 1])
    say(True, "E: %d messages (%d up, %d down), %d lines of fields"
        % (len(messages), sum(m["direction"] == "up" for m in messages),
           sum(m["direction"] == "down" for m in messages), sum(len(m["fields"]) for m in messages)))
    say(not twice([m["name"] for m in messages]), "E: no message twice")
    say(not twice([(m["tid"], m["direction"]) for m in messages]), "E: no two messages with the same TID and direction")
    say(not any(twice([f["name"] for f in m["fields"]]) for m in messages), "E: no field twice in one message")
    say(sorted({m["tid_name"] for m in messages}) == sorted(t["name"] for t in tids),
        "A and E: each TID has a message and each message a TID (%d)" % len({m["tid"] for m in messages}))
    say(all(f["name"] in {d["name"] for d in fields} for m in messages for f in m["fields"]),
        "E: each field that E names is in D")
    unused = [f["name"] for f in fields if f["name"] not in {x["name"] for m in messages for x in m["fields"]}]
    say(not unused, "D: each field is in a message of E: not used %s" % unused)
    explained = {f["name"]: squeeze(f["explanation"]) for f in fields}
    odd = [(f["line"], f["name"], f["explanation"], explained[f["name"]]) for m in messages for f in m["fields"]
           if squeeze(f["explanation"]) != explained[f["name"]]]
    say(len(odd) <= 1, "E: each field's explanation is D's: otherwise %s" % odd)
    say(sorted({s["message"] for s in sent}) == sorted(m["name"] for m in messages),
        "Table 7 and E: the same messages (%d); in Table 7 twice: %s"
        % (len({s["message"] for s in sent}), twice([s["message"] for s in sent])))
    odd = [(s["line"], s["message"], s["explanation"], m["explanation"]) for s in sent for m in messages
           if s["message"] == m["name"] and squeeze(s["explanation"]) != squeeze(m["explanation"])]
    say(True, "Table 7 and E: explanations that differ: %s" % odd)
    odd = [m["name"] for m in messages if "TID_" + re.sub(r"^(Req|Rsp)", "", m["name"]) != m["tid_name"]]
    say(not odd, "Table 7: TID name is TID_ and the message without Req or Rsp: otherwise %s" % odd)
    odd = [m["name"] for m in messages if (m["direction"] == "up") != m["name"].startswith("Req")]
    say(not odd, "Table 7: up are exactly the messages named Req..: otherwise %s" % odd)

    def mode01(tid):
        return ("private" if 0x1001 <= tid <= 0x1003 else "broadcast" if 0x2001 <= tid <= 0x2007
                else "management" if tid in (0x0016, 0x0017, 0x1005) else "dialog")
    odd = [(m["name"], m["modes"], mode01(m["tid"])) for m in messages if m["modes"] != [mode01(m["tid"])]]
    say(all(mode01(m["tid"]) in m["modes"] for m in messages),
        "Table 7's mode is that of document 01's ranges; with more than one mode: %s" % odd)
    say(True, "TIDs with a message up and down: %d; down only: %d; up only: %d" % tuple(
        sum(1 for t in tids if {m["direction"] for m in messages if m["tid"] == t["tid"]} == d)
        for d in ({"up", "down"}, {"down"}, {"up"})))
    say(len(std["empty_E"]) <= 1, "E: empty lines in the table, passed over: %s" % std["empty_E"])
    # rough second counts, by other means than the table reader
    at, text = std["at"], std["lines"]
    rough = [l for l in text[at["D"]:at["E"] - 1] if l.startswith("|") and "域名称" not in l and not l.startswith("|--")]
    heads = [l for l in rough if "0x" in l]
    say(len(heads) == len(fields) and len(rough) - len(heads) == len(rows),
        "second count of D: %d lines with 0x, %d others" % (len(heads), len(rough) - len(heads)))
    rough = [l for l in text[at["E"]:at["F"] - 1] if re.search(r"Field(</b>)? *\|", l)]
    say(len(rough) == sum(len(m["fields"]) for m in messages), "second count of E: %d lines with a field" % len(rough))
    rough = [l for l in text[at["C"]:at["D"] - 1] if re.search(r"\|[^|]*FTD[^|]*\|", l)]
    say(len(rough) == len(items), "second count of C: %d lines with a type" % len(rough))
    rough = [l for l in text[at["B"]:at["C"] - 1] if re.match(r"\| *(<b>)?FTD", l)]
    say(len(rough) == len(types), "second count of B: %d lines" % len(rough))
    rough = [l for l in text[at["A"]:at["B"] - 1] if "TID_" in l]
    say(len(rough) == len(tids), "second count of A: %d lines" % len(rough))
    return out


# ---------------------------------------------------------------------------------------------------------------
# Output


def as_json(std):
    keep = lambda d, *ks: {k: d[k] for k in ks}
    return {
        "source": "JR/T 0016-2004, Appendices A to E, Tables 6 and 7; 'line' is the line of the text",
        "kinds": [{"kind": i, "basic": b, "enumeration": None} for i, b in enumerate(KINDS)] +
                 [{"kind": len(KINDS) + i, "basic": "Char", "enumeration": e[0], "types": e[1]}
                  for i, e in enumerate(enumerations(std))],
        "tids": std["tids"],
        "messages": [dict(keep(m, "line", "name", "explanation", "tid_name", "tid", "direction", "modes",
                               "table7_lines"),
                          fields=[dict(keep(f, "line", "name", "fid", "least", "most"), unlimited=f["most"] is None)
                                  for f in m["fields"]]) for m in std["messages"]],
        "types": [dict(keep(t, "line", "name", "printed_base", "basic", "width", "decimals", "enumeration", "meanings",
                            "format"), kind=kind_of(std, t)) for t in std["types"]],
        "items": [dict(keep(i, "line", "name", "printed", "type", "basic", "width", "decimals", "enumeration",
                            "explanation"), kind=kind_of(std, i)) for i in std["items"]],
        "fields": [dict(keep(f, "line", "name", "explanation", "fid", "width"),
                        rows=[dict(keep(r, "line", "item", "type", "basic", "width", "decimals", "enumeration"),
                                   kind=kind_of(std, r)) for r in f["rows"]]) for f in std["fields"]],
        "corrections": [dict(zip(("line", "table", "printed", "read", "reason"), c)) for c in CORRECTIONS],
        "ignored_enumerations": std["ignored_enumerations"],
    }


def column(name, ty, values, width=100):
    lines, now = [], "   "
    for v in values:
        word = " %d," % v
        if len(now) + len(word) > width:
            lines.append(now)
            now = "   "
        now += word
    lines.append(now)
    return "static %s: [%s; %d] = [\n%s\n];" % (name, ty, len(values), "\n".join(lines))


def rattle(std):
    out = []
    enums = enumerations(std)
    rows = [(f, r) for f in std["fields"] for r in f["rows"]]
    pairs = [(m, f) for m in std["messages"] for f in m["fields"]]
    dirn = {"up": 0, "down": 1}
    most = lambda f: MOST_UNLIMITED if f["most"] is None else f["most"]

    def mark(c):
        # one list of kinds, written as comments of either language
        res = [c + " KIND: 0 Char without enumeration   1 Word   2 Int   3 String   4 Number   5 Float   6 Date"]
        for i, (values, names) in enumerate(enums):
            res.append(c + " %7d Char, one of %s: %s"
                       % (len(KINDS) + i, " ".join(map(str, values)), ", ".join(names)))
        res.append(c + " Values are as Appendix B prints them; 0 for unused (document 01) is not added here.")
        return res

    out.append("// ===== (a) constant columns =====")
    out.append("// Appendix D, all rows in the paper's order: FID, kind, width in bytes, decimals (Float only, else 0).")
    out += mark("//")
    out.append(column("FID", "u16", [f["fid"] for f, _ in rows]))
    out.append(column("KIND", "u8", [kind_of(std, r) for _, r in rows]))
    out.append(column("WIDTH", "u16", [r["width"] for _, r in rows]))
    out.append(column("SCALE", "u8", [r["decimals"] for _, r in rows]))
    out.append("")
    out.append("// Appendix E, all lines in the paper's order. DIRECTION: 0 up (sent by the member), 1 down (sent by the")
    out.append("// exchange), by Table 7. MOST: %d stands for 任意, unlimited (no message of 32,768 bytes has as many fields)."
               % MOST_UNLIMITED)
    out.append(column("MESSAGE_TID", "u16", [m["tid"] for m, _ in pairs]))
    out.append(column("MESSAGE_DIRECTION", "u8", [dirn[m["direction"]] for m, _ in pairs]))
    out.append(column("MESSAGE_FID", "u16", [f["fid"] for _, f in pairs]))
    out.append(column("MESSAGE_LEAST", "u16", [f["least"] for _, f in pairs]))
    out.append(column("MESSAGE_MOST", "u16", [most(f) for _, f in pairs]))
    out.append("")

    # The first element of each list has no ∷ before it (the list is x ∷ y ∷ []); all the others have.
    def listed(entries, pad):
        first = True
        for e in entries:
            if isinstance(e, str):
                out.append("    " + e)
            else:
                text, remark = e
                out.append("  %s %s-- %s" % (" " if first else "∷", text.ljust(pad), remark))
                first = False
        out.append("  ∷ []")
        out.append("")

    out.append("-- ===== (b) antt: Appendix D, one row of the paper a line: row FID KIND WIDTH SCALE =====")
    out += mark("--")
    out.append("rows =")
    entries = []
    for f in std["fields"]:
        entries.append("-- %s  FID 0x%04X  (%d rows, %d bytes; text line %d)"
                       % (f["name"], f["fid"], len(f["rows"]), f["width"], f["line"]))
        for r in f["rows"]:
            entries.append(("row %d %d %d %d" % (f["fid"], kind_of(std, r), r["width"], r["decimals"]),
                            "%s.%s %s" % (f["name"], r["item"], r["type"])))
    listed(entries, 21)

    out.append("-- ===== the distinct enumerations of Appendix B: KIND, then the values as printed =====")
    out.append("enumerations =")
    listed([("enumeration %d (%s)" % (len(KINDS) + i, " ∷ ".join(map(str, v + ["[]"]))), ", ".join(names))
            for i, (v, names) in enumerate(enums)], 62)

    out.append("-- ===== Appendix E, one line of the paper a line: part TID DIRECTION FID LEAST MOST =====")
    out.append("-- DIRECTION 0 up, 1 down (Table 7). MOST %d is 任意, unlimited. The paper prints most before least;"
               % MOST_UNLIMITED)
    out.append("-- here least comes first.")
    out.append("parts =")
    entries = []
    for m in std["messages"]:
        entries.append("-- %s  TID 0x%04X %s  (text line %d)" % (m["name"], m["tid"], m["direction"], m["line"]))
        for f in m["fields"]:
            entries.append(("part %d %d %d %d %d" % (m["tid"], dirn[m["direction"]], f["fid"], f["least"], most(f)),
                            "%s.%s %s to %s" % (m["name"], f["name"], f["least"],
                                                "任意" if f["most"] is None else f["most"])))
    listed(entries, 24)

    out.append("-- ===== for the rule of the table: the types of Appendix B, and of Table 6 as used: form KIND WIDTH SCALE =====")
    out.append("forms =")
    seen, entries = set(), ["-- Appendix B, in the paper's order"]
    for t in std["types"]:
        entries.append(("form %d %d %d" % (kind_of(std, t), t["width"], t["decimals"]), t["name"]))
    entries.append("-- types of Table 6 that Appendix C uses itself")
    for i in std["items"]:
        if BASE.fullmatch(i["type"]) and i["type"] not in seen:
            seen.add(i["type"])
            entries.append(("form %d %d %d" % (kind_of(std, i), i["width"], i["decimals"]), i["type"]))
    listed(entries, 15)

    out.append("-- ===== each field's sum: total FID ROWS WIDTH =====")
    out.append("totals =")
    listed([("total %d %d %d" % (f["fid"], len(f["rows"]), f["width"]), f["name"]) for f in std["fields"]], 17)
    return "\n".join(out)


def markdown(std):
    out = ["## Counts and checks", ""]
    for ok, text in checks(std):
        out.append("- %s%s" % ("" if ok else "**FAILS** ", text))
    out += ["", "## Corrections", "", "| Line | Table | Printed | Read as | Reason |", "|---|---|---|---|---|"]
    for c in CORRECTIONS:
        out.append("| %d | %s | %s | %s | %s |" % c)
    out += ["", "## Kinds", "", "| KIND | Meaning | Types | Rows of D |", "|---|---|---|---|"]
    rows = [r for f in std["fields"] for r in f["rows"]]
    count = lambda k: sum(kind_of(std, r) == k for r in rows)
    for i, b in enumerate(KINDS):
        forms = sorted({("%d,%d" % (r["width"], r["decimals"]) if b == "Float" else "%d" % r["width"],
                         ) for r in rows if kind_of(std, r) == i}, key=lambda x: [int(y) for y in x[0].split(",")])
        out.append("| %d | %s%s | widths in D: %s | %d |" % (i, b, " without enumeration" if b == "Char" else "",
                                                       "; ".join(x[0] for x in forms), count(i)))
    for i, (v, names) in enumerate(enumerations(std)):
        out.append("| %d | Char, one of %s | %s | %d |" % (len(KINDS) + i, " ".join(map(str, v)), ", ".join(names),
                                                          count(len(KINDS) + i)))
    out += ["", "## Types", "", "| Type | Base as printed | Read as | Width | Decimals | Values | Rows of D | Line |",
            "|---|---|---|---|---|---|---|---|"]
    basics = {}
    for i in std["items"]:
        if BASE.fullmatch(i["type"]):
            basics.setdefault(i["type"], i)
    for t in std["types"] + [dict(basics[b], name=b, printed_base="Table 6", line=std["table6"][basics[b]["basic"]]["line"])
                             for b in sorted(basics)]:
        out.append("| %s | %s | %s | %d | %d | %s | %d | %d |" % (
            t["name"], t["printed_base"], t["basic"], t["width"], t["decimals"],
            "" if t["enumeration"] is None else " ".join(map(str, t["enumeration"])),
            sum(r["type"] == t["name"] for r in rows), t["line"]))
    out += ["", "## Three fields whole", ""]
    for name in ("RspUserLoginField", "ReqUserLoginField", "DisseminationstartField"):
        f = next(f for f in std["fields"] if f["name"] == name)
        out += ["%s, FID 0x%04X, %d bytes (line %d)" % (name, f["fid"], f["width"], f["line"]), "",
                "| Offset | Item | Type | Read as | Width | Values | KIND | Line of D | Line of C |",
                "|---|---|---|---|---|---|---|---|---|"]
        off = 0
        for r in f["rows"]:
            out.append("| %d | %s | %s | %s | %d | %s | %d | %d | %d |" % (
                off, r["item"], r["type"], r["basic"], r["width"],
                "" if r["enumeration"] is None else " ".join(map(str, r["enumeration"])), kind_of(std, r), r["line"],
                r["item_line"]))
            off += r["width"]
        out.append("")
    out += ["## Fields", "", "| FID | Field | Rows | Bytes | Line |", "|---|---|---|---|---|"]
    for f in std["fields"]:
        out.append("| 0x%04X | %s | %d | %d | %d |" % (f["fid"], f["name"], len(f["rows"]), f["width"], f["line"]))
    out += ["", "## Messages", "", "| TID | Direction | Message | Mode (Table 7) | Fields: least to most | Line |",
            "|---|---|---|---|---|---|"]
    for m in std["messages"]:
        out.append("| 0x%04X | %s | %s | %s | %s | %d |" % (
            m["tid"], m["direction"], m["name"], ", ".join(m["modes"]),
            "; ".join("%s %d to %s" % (f["name"], f["least"], "任意" if f["most"] is None else f["most"])
                      for f in m["fields"]), m["line"]))
    return "\n".join(out)


def main(args):
    if len(args) < 1 or args[0].startswith("-"):
        print(__doc__)
        return 2
    try:
        std = read_standard(args[0])
    except Bad as e:
        print("NOT READ:", e, file=sys.stderr)
        return 1
    rest = args[1:]
    if rest[:1] == ["--rattle"]:
        print(rattle(std))
    elif rest[:1] == ["--markdown"]:
        print(markdown(std))
    else:
        if rest[:1] == ["--json"]:
            text = json.dumps(as_json(std), ensure_ascii=False, indent=1)
            if rest[1] == "-":
                print(text)
                return 0
            with open(rest[1], "w", encoding="utf-8") as f:
                f.write(text + "\n")
        res = checks(std)
        for ok, text in res:
            print("%-5s %s" % ("ok" if ok else "FAILS", text))
        print("%d checks, %d fail" % (len(res), sum(not ok for ok, _ in res)))
        return 0 if all(ok for ok, _ in res) else 1
    return 0


if __name__ == "__main__":
    sys.exit(main(sys.argv[1:]))
