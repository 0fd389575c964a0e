#!/usr/bin/env python3
"""Makes include/ftd_names.h, the names and meanings for C, from the tables of crate ftd and from include/ftd.h.

    cnames.py                        writes the header
    cnames.py --check                fails where the header isn't what the tables give, or the tables don't agree
    cnames.py --check STANDARD.txt   compares the meanings of enumerations with Appendix B too

TIDs are those of specs/Mode.antt, messages with their directions those of specs/Composition.antt, fields and items
those of specs/Table.antt; src/table.rt, which the library is made of, has to say the same of every item. The meanings
of the enumerations' values are the only data written here: the standard's words, and their English.
"""
import os
import re
import sys

ROOT = os.path.join(os.path.dirname(os.path.abspath(__file__)), "..", "..")
HEADER = os.path.join("include", "ftd_names.h")
WIDE = 120

STATUS = [(0, "连续交易", "continuous trading"), (1, "开盘集合竞价", "opening auction"), (2, "收盘集合竞价", "closing auction"),
          (3, "暂停", "halted"), (4, "非交易", "not trading")]
ZERO = [(0, "目前应该为 0", "none but this at present")]
MEANINGS = {
    "FTDActionFlag": [(0, "删除", "delete"), (1, "挂起", "suspend"), (2, "激活", "activate")],
    "FTDBoolFlag": [(0, "假", "false"), (1, "真", "true")],
    "FTDClientType": [(0, "自然人", "natural person"), (1, "法人", "legal person")],
    "FTDDataFlowFlag": [(0, "对话流", "dialog flow"), (1, "私有流", "private flow"), (2, "广播流", "broadcast flow")],
    "FTDDirection": [(0, "买", "buy"), (1, "卖", "sell")],
    "FTDForceExitCode": ZERO,
    "FTDHedgeFlag": [(1, "投机", "speculation"), (3, "套期保值", "hedging")],
    "FTDInstrumentStatus": STATUS,
    "FTDInstrumentType": ZERO,
    "FTDInstrumentVersion": ZERO,
    "FTDMarketStatus": STATUS,
    "FTDMatchCondition": [(1, "即时全部成交", "all at once or none"), (2, "即时部分成交", "at once in part"),
                          (3, "当日有效", "good for the day"), (4, "取消前有效", "good till cancelled"),
                          (5, "指定日期前有效", "good till date")],
    "FTDMatchFlag": [(0, "同为开仓", "both open"), (1, "同为平仓", "both close"), (2, "不同", "different")],
    "FTDMatchSession": [(1, "开盘集合竞价", "opening auction"), (2, "连续交易", "continuous trading"),
                        (3, "开盘集合竞价和连续交易", "opening auction and continuous trading"),
                        (4, "收盘集合竞价", "closing auction"),
                        (5, "开盘集合竞价和收盘集合竞价", "opening and closing auction"),
                        (6, "连续交易和收盘集合竞价", "continuous trading and closing auction"),
                        (7, "开盘集合竞价,连续交易和收盘集合竞价", "opening auction, continuous trading and closing auction")],
    "FTDNewsUrgency": [(0, "不紧急", "not urgent"), (1, "紧急", "urgent")],
    "FTDOffsetFlag": [(0, "开仓", "open"), (1, "平仓", "close"), (2, "强平", "forced close"), (3, "强减", "forced reduction")],
    "FTDOrderStatus": [(0, "全部成交", "all traded"), (1, "部分成交还在队列中", "part traded, queueing"),
                       (2, "部分成交不在队列中", "part traded, not queueing"), (3, "未成交还在队列中", "not traded, queueing"),
                       (4, "未成交不在队列中", "not traded, not queueing"), (5, "撤单", "withdrawn")],
    "FTDOrderType": [(0, "限价", "limit"), (1, "市价", "market"), (2, "止损限价", "stop limit"), (3, "止损市价", "stop market"),
                     (4, "市价转限价", "market to limit"), (5, "最好价格", "best price"), (6, "均价", "average price")],
    "FTDParticipantType": [(0, "自营", "own account"), (1, "经纪", "broker"), (2, "综合", "own account and broker"),
                           (3, "特别", "special"), (4, "做市商", "market maker")],
    "FTDPubStyle": [(0, "不发布", "not published"), (1, "发布", "published")],
    "FTDStopCode": ZERO,
    "FTDTradeRight": [(0, "完全", "full"), (1, "只可平", "close only"), (2, "不准交易", "no trading")],
    "FTDTradeType": ZERO,
    "FTDUserStatus": ZERO,
    "FTDUserType": ZERO,
    "FTDVolumeType": [(0, "增量", "increment"), (1, "绝对量", "absolute")],
}

# Shorter constants for long meanings.
SHORT = {"opening auction and continuous trading": "OPENING_AND_CONTINUOUS",
         "continuous trading and closing auction": "CONTINUOUS_AND_CLOSING",
         "opening auction, continuous trading and closing auction": "ALL"}

# The kinds of specs/Table.antt as those of enum ftd_kind; the others are enumerations, FTD_CHAR.
KINDS = {"char_kind": "FTD_CHAR", "word_kind": "FTD_WORD", "int_kind": "FTD_INT", "string_kind": "FTD_TEXT",
         "number_kind": "FTD_NUMBER", "float_kind": "FTD_FLOAT", "date_kind": "FTD_DAY"}
KIND_NAMES = [("FTD_NO_ITEM", "no item"), ("FTD_NO_VALUE", "no value"), ("FTD_CHAR", "char"), ("FTD_WORD", "word"),
              ("FTD_INT", "int"), ("FTD_TEXT", "text"), ("FTD_NUMBER", "number"), ("FTD_FLOAT", "float"),
              ("FTD_DAY", "date"), ("FTD_UNUSED", "unused date")]
MODE_NAMES = [("FTD_UNKNOWN", "unknown"), ("FTD_PRIVATE", "private"), ("FTD_BROADCAST", "broadcast"),
              ("FTD_MANAGEMENT", "management"), ("FTD_DIALOG", "dialog")]


class Bad(Exception):
    pass


def need(ok, *words):
    if not ok:
        raise Bad(" ".join(str(w) for w in words))


def text(*path):
    with open(os.path.join(ROOT, *path), encoding="utf-8") as f:
        return f.read()


# ─── The tables ───


def read_tids():
    """Pairs of number and name, by number."""
    spec = text("crates", "ftd", "specs", "Mode.antt")
    part = spec[spec.index("listed_tids ="):]
    part = part[:part.index("∷ []")]
    found = re.findall(r"0x([0-9A-F]{4}) +-- TID_(\w+)", part)
    need(found and len(found) == len(re.findall(r"0x", part)), "a TID of Mode.antt isn't understood")
    return sorted((int(n, 16), name) for n, name in found)


def read_modes(tids):
    """The mode of each TID, by the ranges of Mode.antt; the others of Appendix A are dialog."""
    spec = text("crates", "ftd", "specs", "Mode.antt")

    def rule(name):
        found = re.search(r"^%s tid = (.*)$" % name, spec, re.M)
        need(found, name, "isn't in Mode.antt")
        words = re.sub(r"leb (0x\w+) tid", r"(\1 <= tid)", found.group(1))
        words = re.sub(r"leb tid (0x\w+)", r"(tid <= \1)", words)
        words = re.sub(r"eqb tid (0x\w+)", r"(tid == \1)", words).replace("&&", "and").replace("||", "or")
        need(re.fullmatch(r"[()0-9A-Fa-fx<=\s]*(?:(?:tid|and|or)[()0-9A-Fa-fx<=\s]*)*", words), "mode rule", words)
        return lambda tid: eval(words, {"__builtins__": {}}, {"tid": tid})

    rules = [("FTD_PRIVATE", rule("is_private")), ("FTD_BROADCAST", rule("is_broadcast")),
             ("FTD_MANAGEMENT", rule("is_management"))]
    return {tid: next((mode for mode, holds in rules if holds(tid)), "FTD_DIALOG") for tid, _ in tids}


def read_messages(tids):
    """(TID, direction, name) of each message of Appendix E."""
    spec = text("crates", "ftd", "specs", "Composition.antt")
    found = re.findall(r"^ +-- (\w+), TID 0x([0-9A-F]{4}), (up|down)$", spec, re.M)
    lines = {(int(t, 16), d.lower()) for t, d in re.findall(r"listed 0x([0-9A-F]{4}) (Up|Down) 0x", spec)}
    messages = sorted((int(t, 16), d, name) for name, t, d in found)
    need({(t, d) for t, d, _ in messages} == lines and len(messages) == len(lines), "messages of Composition.antt")
    need({t for t, _, _ in messages} == {t for t, _ in tids}, "TIDs of Composition.antt and Mode.antt")
    return messages


def read_fields():
    """Each field by FID: name, width and rows (item, type, kind, width, decimals)."""
    spec = text("crates", "ftd", "specs", "Table.antt")
    listed = re.findall(r"\(([^()]*)\)", spec[spec.index("enumerations ="):spec.index("-- ─── The rows of a field")])
    listed = [[int(x) for x in re.findall(r"\d+", one)] for one in listed]
    numbers = {name: int(n) for name, n in re.findall(r"^(\w+_kind) = (\d+)$", spec, re.M)}
    fields, rows = {}, 0
    for line in spec[spec.index("\ntable ="):].split("\n"):
        head = re.fullmatch(r" +-- (\w+), FID 0x([0-9A-F]{4}): (\d+) rows, (\d+) bytes", line)
        row = re.fullmatch(r" +(?:∷ )?row 0x([0-9A-F]{4}) (\w+) (\d+) (\d+)  -- (\S+) (\S+)", line)
        if head:
            at = int(head[2], 16)
            fields[at] = {"name": head[1], "count": int(head[3]), "width": int(head[4]), "rows": []}
        elif row:
            need(int(row[1], 16) == at, "row", line)
            values = None
            if row[2] not in KINDS:
                values = listed[numbers[row[2]] - len(KINDS)]
                need(row[6] in MEANINGS and [v for v, _, _ in MEANINGS[row[6]]] == values,
                     "the values of", row[6], "and their meanings")
            fields[at]["rows"].append((row[5], row[6], row[2], int(row[3]), int(row[4])))
            rows += 1
        else:
            need("row 0x" not in line, "line isn't understood:", line)
    need(sorted(fields) == list(range(1, len(fields) + 1)), "FIDs aren't 1 to", len(fields))
    for fid, f in fields.items():
        need(len(f["rows"]) == f["count"] and sum(r[3] for r in f["rows"]) == f["width"], "field", hex(fid))
        need(len({r[0] for r in f["rows"]}) == f["count"], "an item twice in", f["name"])
    compare_code(spec, fields)
    return fields


def compare_code(spec, fields):
    """src/table.rt says the same, row by row and field by field."""
    code = text("crates", "ftd", "src", "table.rt")
    names = dict(re.findall(r"pub const (\w+): u8 = (\d+);", text("crates", "ftd", "src", "kinds.rt")))
    numbers = dict(re.findall(r"^(\w+_kind) = (\d+)$", spec, re.M))

    def column(name):
        found = re.search(r"static %s: \[\w+; (\d+)\] = \[([^\]]*)\]" % name, code)
        entries = re.findall(r"(\w+)(?:,|\s*\Z)(?: // (\w+) (\S+): (\S+))?\s*", found.group(2))
        need(len(entries) == int(found.group(1)), "column", name)
        return entries

    start, count, wide = ([int(e[0]) for e in column(n)] for n in ("START", "COUNT", "WIDE"))
    kind, width, scale = column("KIND"), column("WIDTH"), column("SCALE")
    need(len(start) == len(fields) + 1 and len(kind) == sum(f["count"] for f in fields.values()), "table.rt: lengths")
    for fid, f in fields.items():
        need((count[fid], wide[fid]) == (f["count"], f["width"]), "table.rt: field", f["name"])
        for i, (item, type_name, kind_name, w, s) in enumerate(f["rows"]):
            at = start[fid] + i
            here = (names[kind[at][0]], kind[at][1:], int(width[at][0]), int(scale[at][0]))
            need(here == (numbers[kind_name], (f["name"], item, type_name), w, s), "table.rt: item", f["name"], item)


def read_refusals():
    """(number, constant, words) of enum ftd_refusal."""
    header = text("include", "ftd.h")
    part = re.search(r"enum ftd_refusal \{\n(.*?)\n\};", header, re.S).group(1)
    found = re.findall(r"(FTD_\w+) = (\d+),?\s*/\* (.*?) \*/", part, re.S)
    need(len(found) == len(re.findall(r"^ +FTD_\w+ = ", part, re.M)), "a refusal of ftd.h isn't understood")
    for enum, names in (("ftd_kind", KIND_NAMES), ("ftd_mode", MODE_NAMES)):
        body = re.search(r"enum %s \{(.*?)\n\};" % enum, header, re.S).group(1)
        need(re.findall(r"^ +(FTD_\w+) = (\d+)", body, re.M) == [(n, str(i)) for i, (n, _) in enumerate(names)], enum)
    return [(int(n), name, re.sub(r"\s+", " ", words)) for name, n, words in found]


# ─── The header ───


def values_of(type_name):
    """The values that the library takes, with meanings: where 0 isn't listed it stands for an unused item."""
    listed = [(v, m) for v, _, m in MEANINGS[type_name]]
    return listed if listed[0][0] == 0 else [(0, "unused")] + listed


def words_of(name):
    """MarketMatchIncData: MARKET_MATCH_INC_DATA."""
    return re.sub(r"(?<=[a-z0-9])(?=[A-Z])|(?<=[A-Z])(?=[A-Z][a-z])", "_", name).upper()


def constant(words):
    return SHORT.get(words) or re.sub(r"[^A-Za-z0-9]+", "_", words).upper()


def short(field):
    return field[:-len("Field")]


def enum(name, entries, about=None):
    """entries: constant, value, comment."""
    out = ["/* %s */" % about] if about else []
    out.append("enum %s {" % name)
    wide = max(len("%s = %s," % e[:2]) for e in entries)
    for i, (what, value, comment) in enumerate(entries):
        head = "%s = %s%s" % (what, value, "," if i < len(entries) - 1 else "")
        line = "    %-*s /* %s */" % (wide, head, comment)
        if len(line) > WIDE:
            line = "    %s /* %s */" % (head, comment)
        need(len(line) <= WIDE, "too long:", line)
        out.append(line)
    return out + ["};", ""]


def quoted(words):
    need(all(32 <= ord(c) < 127 and c not in '"\\' for c in words), words)
    return '"%s"' % words


def long_row(head, words, tail):
    """A row of a table whose last text may take several lines."""
    line = head + quoted(words) + tail
    if len(line) <= WIDE:
        return [line]
    room = WIDE - 16
    parts, rest = [], words
    while len(rest) > room:
        cut = rest.rindex(" ", 0, room) + 1
        parts, rest = parts + [rest[:cut]], rest[cut:]
    parts.append(rest)
    return [head.rstrip()] + [" " * 12 + quoted(p) for p in parts[:-1]] + [" " * 12 + quoted(parts[-1]) + tail]


HEAD = """\
/* The names of JR/T 0016-2004 for C and C++, beside ftd.h: TIDs, FIDs, the items of each field, the values of the
 * enumerations with their meanings, the refusals in words.
 * Made by tests/tables/cnames.py from the tables of crate ftd (Appendices A, B, D and E) and ftd.h; not to be edited.
 *
 * Names of TIDs, messages, fields, items and types are the standard's, meanings are its words in English. Nothing here
 * is in the library: the tables stand in the functions that look them up, and a program has those that it calls. A
 * number that is unknown gives a null pointer.
 */
#ifndef FTD_NAMES_H
#define FTD_NAMES_H

#include "ftd.h"
"""


def header(tids, modes, messages, fields, refusals):
    out = HEAD.split("\n")
    mode_words = dict(MODE_NAMES)
    out += ["/* ---- Numbers by name ---- */", ""]
    sent = {}
    for tid, direction, name in messages:
        sent.setdefault(tid, []).append("%s %s" % (direction, name))
    out += enum("ftd_tid", [("FTD_TID_" + words_of(name), "0x%04X" % tid,
                             "%s: %s" % (mode_words[modes[tid]], ", ".join(sorted(sent[tid], reverse=True))))
                            for tid, name in tids],
                "TIDs (Appendix A): mode, and the messages with it (Appendix E).")
    out += enum("ftd_fid", [("FTD_FID_" + words_of(short(f["name"])), "0x%04X" % fid,
                             "%s: %d items, %d bytes" % (f["name"], f["count"], f["width"]))
                            for fid, f in sorted(fields.items())], "FIDs (Appendix D).")
    out += ["/* The items of each field (Appendix D), by their place, as ftd_read_item and ftd_write_item count",
            " * them. Behind each: offset in the field's bytes, width, kind, type. */", ""]
    kind_words = dict(KIND_NAMES)
    for fid, f in sorted(fields.items()):
        entries, offset = [], 0
        for i, (item, type_name, kind, width, scale) in enumerate(f["rows"]):
            what = kind_words[KINDS.get(kind, "FTD_CHAR")] + (", %d decimals" % scale if scale else "")
            entries.append(("FTD_ITEM_%s_%s" % (words_of(short(f["name"])), words_of(item)), i,
                            "at %d, width %d: %s, %s" % (offset, width, what, type_name)))
            offset += width
        out += enum("ftd_item_" + words_of(short(f["name"])).lower(), entries, "%s, FID 0x%04X." % (f["name"], fid))
    out += ["/* The values of the enumerations (Appendix B), by type. Where 0 isn't among the listed ones it stands",
            " * for an unused item. */", ""]
    used = {r[1] for f in fields.values() for r in f["rows"] if r[2] not in KINDS}
    types = sorted(t for t in MEANINGS if t in used)
    for t in types:
        name = words_of(t[3:])
        out += enum("ftd_value_" + name.lower(),
                    [("FTD_VALUE_%s_%s" % (name, constant(m) if MEANINGS[t] is not ZERO else "ONLY"), v, m)
                     for v, m in values_of(t)])

    out += ["/* ---- What is known of a field and of an item ---- */", "",
            "struct ftd_field_names {",
            "    const char *name; /* as Appendix D prints it */",
            "    uint16_t first;   /* where its items start in the table of all items */",
            "    uint16_t count;   /* how many items it has */",
            "    uint16_t width;   /* how many bytes they have together: the length of the field */",
            "};", "",
            "struct ftd_item_names {",
            "    const char *name; /* as Appendix D prints it */",
            "    const char *type; /* of Appendix B or Table 6 */",
            "    uint16_t offset;  /* where the item starts in the field's bytes */",
            "    uint16_t width;   /* how many bytes it has */",
            "    uint8_t kind;     /* enum ftd_kind; FTD_DAY for a Date, which may be FTD_UNUSED when read */",
            "    uint8_t decimals; /* of FTD_FLOAT, else 0 */",
            "    uint8_t listed;   /* FTD_CHAR: its enumeration, a number that ftd_listed_value_name takes; 0: none */",
            "};", "",
            "/* ---- Look-ups ---- */", ""]

    out += ["/* The name of a TID, as \"UserLogin\". */", "static inline const char *ftd_tid_name(uint32_t tid) {",
            "    switch (tid) {"]
    for tid, name in tids:
        out += ["    case FTD_TID_%s:" % words_of(name), "        return %s;" % quoted(name)]
    out += ["    default:", "        return NULL;", "    }", "}", ""]

    out += ["/* The name of the message with that TID in a direction (enum ftd_direction; any number but 0 is",
            " * down), as \"ReqUserLogin\" and \"RspUserLogin\". */",
            "static inline const char *ftd_message_name(uint32_t tid, uint8_t direction) {", "    switch (tid) {"]
    names = {(t, d): n for t, d, n in messages}
    for tid, name in tids:
        up, down = (quoted(names[tid, d]) if (tid, d) in names else "NULL" for d in ("up", "down"))
        out += ["    case FTD_TID_%s:" % words_of(name), "        return direction == FTD_UP ? %s : %s;" % (up, down)]
        need(len(out[-1]) <= WIDE, out[-1])
    out += ["    default:", "        return NULL;", "    }", "}", ""]

    out += ["/* What is known of the field with that FID. */",
            "static inline const struct ftd_field_names *ftd_field_names_of(uint32_t fid) {",
            "    static const struct ftd_field_names fields[%d] = {" % len(fields)]
    first = 0
    for fid, f in sorted(fields.items()):
        out.append("        {%s, %d, %d, %d}," % (quoted(f["name"]), first, f["count"], f["width"]))
        first += f["count"]
    out[-1] = out[-1].rstrip(",")
    out += ["    };", "    return fid >= 1 && fid <= %d ? &fields[fid - 1] : NULL;" % len(fields), "}", ""]

    out += ["/* What is known of item i, counted from 0, of the field with that FID. */",
            "static inline const struct ftd_item_names *ftd_item_names_of(uint32_t fid, size_t i) {",
            "    static const struct ftd_item_names items[%d] = {" % first]
    for fid, f in sorted(fields.items()):
        out.append("        /* 0x%04X %s */" % (fid, f["name"]))
        offset = 0
        for item, type_name, kind, width, scale in f["rows"]:
            listed = 0 if kind in KINDS else 1 + types.index(type_name)
            out.append("        {%s, %s, %d, %d, %s, %d, %d}," % (quoted(item), quoted(type_name), offset, width,
                                                                  KINDS.get(kind, "FTD_CHAR"), scale, listed))
            need(len(out[-1]) <= WIDE, out[-1])
            offset += width
    out[-1] = out[-1].rstrip(",")
    out += ["    };", "    const struct ftd_field_names *field = ftd_field_names_of(fid);", "",
            "    return field != NULL && i < field->count ? &items[field->first + i] : NULL;", "}", ""]

    out += ["/* The name of a field, as \"BulletinField\", and of its item i, as \"NewsType\". */",
            "static inline const char *ftd_fid_name(uint32_t fid) {",
            "    const struct ftd_field_names *field = ftd_field_names_of(fid);", "",
            "    return field != NULL ? field->name : NULL;", "}", "",
            "static inline const char *ftd_item_name(uint32_t fid, size_t i) {",
            "    const struct ftd_item_names *item = ftd_item_names_of(fid, i);", "",
            "    return item != NULL ? item->name : NULL;", "}", ""]

    out += ["/* The meaning of a value of an enumeration (`listed` of struct ftd_item_names). */",
            "static inline const char *ftd_listed_value_name(uint8_t listed, uint64_t value) {",
            "    static const struct {", "        uint8_t listed, value;", "        const char *meaning;",
            "    } values[] = {"]
    for n, t in enumerate(types, 1):
        out.append("        /* %s */" % t)
        out += ["        {%d, %d, %s}," % (n, v, quoted(m)) for v, m in values_of(t)]
    out[-1] = out[-1].rstrip(",")
    out += ["    };", "    size_t i;", "", "    for (i = 0; i < sizeof values / sizeof values[0]; i++)",
            "        if (values[i].listed == listed && values[i].value == value)",
            "            return values[i].meaning;", "    return NULL;", "}", "",
            "/* The meaning of a value of item i of a field; also null where the item has no enumeration. */",
            "static inline const char *ftd_value_name(uint32_t fid, size_t i, uint64_t value) {",
            "    const struct ftd_item_names *item = ftd_item_names_of(fid, i);", "",
            "    return item != NULL ? ftd_listed_value_name(item->listed, value) : NULL;", "}", ""]

    def look_up(about, function, pairs):
        lines = about + ["static inline const char *%s(uint8_t number) {" % function, "    switch (number) {"]
        for what, words in pairs:
            lines += ["    case %s:" % what] + long_row("        return ", words, ";")
        return lines + ["    default:", "        return NULL;", "    }", "}", ""]

    shorts = [(name, {"FTD_COMPOSITION": "make-up"}.get(name, name[4:].replace("_", " ").lower()))
              for _, name, _ in refusals]
    out += look_up(["/* A refusal in a word or two, as \"broken tag\", and in the words of enum ftd_refusal. 0 is none",
                    " * of them. */"], "ftd_refusal_name", shorts)
    out += look_up([], "ftd_refusal_words", [(name, words) for _, name, words in refusals])
    out += look_up(["/* A mode (enum ftd_mode), and a kind of values (enum ftd_kind). */"], "ftd_mode_name", MODE_NAMES)
    out += look_up([], "ftd_kind_name", KIND_NAMES)
    out += ["#endif", ""]
    constants = [w for line in out for w in re.findall(r"^ +(FTD_(?:TID|FID|ITEM|VALUE)_\w+) = ", line)]
    need(len(set(constants)) == len(constants), "a constant twice")
    taken = set(re.findall(r"\bFTD_\w+", text("include", "ftd.h")))
    need(not taken & set(constants), "constants of ftd.h:", taken & set(constants))
    for line in out:
        need(len(line) <= WIDE, "too long:", line)
    return "\n".join(out)


def compare_standard(path):
    """The meanings' words are those of Appendix B."""
    sys.dont_write_bytecode = True
    import appendices

    std = appendices.read_standard(path)
    here = {t: [(v, words) for v, words, _ in m] for t, m in MEANINGS.items()}
    paper = {t["name"]: sorted(zip(t["enumeration"], t["meanings"])) for t in std["types"] if t["enumeration"]}
    for t in sorted(set(here) | set(paper)):
        need(here.get(t) == paper.get(t), t, "in Appendix B:", paper.get(t), "here:", here.get(t))


def main(args):
    if args and (args[0] != "--check" or len(args) > 2):
        print(__doc__, file=sys.stderr)
        return 2
    try:
        tids = read_tids()
        fields = read_fields()
        made = header(tids, read_modes(tids), read_messages(tids), fields, read_refusals())
        if args[1:]:
            compare_standard(args[1])
    except Bad as bad:
        print("cnames.py:", bad, file=sys.stderr)
        return 1
    path = os.path.join(ROOT, HEADER)
    if not args:
        with open(path, "w", encoding="utf-8") as f:
            f.write(made)
        return 0
    found = text(HEADER) if os.path.exists(path) else ""
    if found != made:
        old, new = found.split("\n"), made.split("\n")
        n = next((i for i, (a, b) in enumerate(zip(old, new)) if a != b), min(len(old), len(new)))
        print("%s differs from the tables at line %d; made anew by tests/tables/cnames.py:" % (HEADER, n + 1))
        print("  header: %s" % (old[n] if n < len(old) else "(its end)"))
        print("  tables: %s" % (new[n] if n < len(new) else "(their end)"))
        return 1
    print("%s: %d TIDs, %d messages, %d fields, %d items as the tables have them" %
          (HEADER, len(tids), len(read_messages(tids)), len(fields), sum(f["count"] for f in fields.values())))
    return 0


if __name__ == "__main__":
    sys.exit(main(sys.argv[1:]))
