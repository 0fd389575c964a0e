#!/usr/bin/env python3
"""Request No. 6, a copy less: neither a Send nor a function that it calls has a byte array above 64 bytes.

    tests/copies.py              searches crates/*/src, from the functions in STARTS on
    tests/copies.py --selftest   that, and shows on planted sources that it can fail

It follows every call by name: functions of the module, imported ones, paths into other crates, methods (where only the name is known,
those of every type that has one), and the constants that a function names, a static too where it takes more than one element of it.
In each function it looks at parameters and results by value, at locals, at array and byte-string expressions, and into each struct and
enum that is named there by value or made there, field by field.
What it cannot tell is an error, not a pass: a call that leads nowhere, a length or an element that it cannot read. The kit's std has
functions over numbers alone; of these it takes those of std::num. It prints each function and constant that it looked at.
Exit status: 0 nothing found, 1 something found or not resolved.
"""
import pathlib
import re
import sys
import tempfile

LIMIT = 64
# Where it starts: the Sends of the serving end and of the box, and the exported functions over them.
STARTS = ["flow::sender::Sender::send", "flow::sender::Sender::send_packet", "exports::serving::ftd_send", "exports::serving::ftd_send_packet",
          "relay::relay::Relay::send", "relay::relay::Relay::send_packet", "exports::boxes::ftd_box_send", "exports::boxes::ftd_box_send_packet"]
BOX = ["relay::"]
KEYWORDS = set("as break const continue crate else enum extern false fn for ghost if impl in let loop match mod move mut pub ref return self "
               "Self static struct super true type use where while".split())
NUMBERS = {"u8", "u16", "u32", "u64", "usize", "i8", "i16", "i32", "i64", "isize", "bool", "f32", "f64"}
TOKEN = re.compile(r'b"(?:[^"\\]|\\.)*"|b\'(?:[^\'\\]|\\.)\'|\'[A-Za-z_]\w*(?!\')|0[xX][0-9a-fA-F_]+|\d[\d_]*|[^\W\d]\w*|::|->|=>|\.\.=|\.\.|&&|\|\||[<>=!]=|\S')


# Methods of std that look at a slice, an array, a number or an option: none makes an array of its own. `map` of an array
# does, one of as many elements as it is given: Search.mapped.
STD_METHODS = frozenset((
    "contains", "enumerate", "is_empty", "is_some", "iter", "len", "max", "min", "position", "take",
    "unwrap_or", "wrapping_add",
))


class Unresolved(Exception):
    pass


def tokens(text):
    text = re.sub(r"//[^\n]*", "", text)
    text = re.sub(r"(?m)^ghost use [^;]*;", "", text)
    return TOKEN.findall(text)


def closing(ts, i):
    """The place behind the bracket that closes the one at i."""
    pairs = {"(": ")", "[": "]", "{": "}"}
    depth = 0
    while True:
        if ts[i] in pairs:
            depth += 1
        elif ts[i] in pairs.values():
            depth -= 1
            if depth == 0:
                return i + 1
        i += 1


class Sources:
    """The items of crates/*/src, by their paths CRATE::MODULE::NAME; of a type's own CRATE::MODULE::TYPE::NAME."""

    def __init__(self, root):
        self.functions, self.types, self.consts, self.uses, self.methods = {}, {}, {}, {}, {}
        self.statics = set()
        for path in sorted(root.glob("crates/*/src/**/*.rt")):
            crate = path.relative_to(root).parts[1]
            parts = list(path.relative_to(root / "crates" / crate / "src").with_suffix("").parts)
            module = "::".join([crate] + ([] if parts in (["lib"], ["main"]) else parts))
            self.uses.setdefault(module, {})
            self.items(module, None, tokens(path.read_text()))

    def items(self, module, owner, ts):
        i, before = 0, module + (f"::{owner}" if owner else "")
        while i < len(ts):
            t = ts[i]
            if t == "#":
                i = closing(ts, i + 1)
            elif t == "use":
                end = ts.index(";", i)
                path = "".join(ts[i + 1:end])
                if "*" in path or "as" in ts[i + 1:end] or path.count("{") > 1 or "{" in path and not path.endswith("}"):
                    raise Unresolved(f"{module}: use {path}: only plain paths are followed, and one list of names at their end")
                front, _, names = path.partition("{")
                for name in names[:-1].split(",") if names else [path]:
                    full = front + name if names else path
                    if name:
                        self.uses[module][full.split("::")[-1]] = full.replace("crate::", module.split("::")[0] + "::")
                i = end + 1
            elif t == "mod":
                i = ts.index(";", i) + 1
            elif t == "type":
                raise Unresolved(f"{module}: a type alias is not followed")
            elif t in ("const", "static"):
                name, end = ts[i + 1], i
                while ts[end] != ";":
                    end = closing(ts, end) if ts[end] in "([{" else end + 1
                equals = ts.index("=", i)
                self.consts[f"{before}::{name}"] = (module, owner, ts[i + 3:equals], ts[equals + 1:end])
                if t == "static":
                    self.statics.add(f"{before}::{name}")
                i = end + 1
            elif t in ("struct", "enum"):
                name, j = ts[i + 1], i + 2
                end = closing(ts, j)
                self.types[f"{module}::{name}"] = (t, module, ts[j + 1:end - 1])
                i = end + (1 if end < len(ts) and ts[end] == ";" else 0)
            elif t == "impl":
                brace = ts.index("{", i)
                head, end = ts[i + 1:brace], closing(ts, brace)
                held = ts[brace + 1:end - 1]
                if "for" in head:
                    # Of a trait: a method of it is found by its name, and what its own type names stand for is not needed.
                    head = head[head.index("for") + 1:]
                    while "type" in held:
                        at = held.index("type")
                        del held[at:held.index(";", at) + 1]
                self.items(module, head[0], held)
                i = end
            elif t == "fn":
                name, j = ts[i + 1], i + 2
                while ts[j] != "(":
                    j += 1
                after = closing(ts, j)
                params, k = ts[j + 1:after - 1], after
                result = []
                if ts[k] == "->":
                    k += 1
                    while ts[k] not in ("{", "requires", "ensures", "measure", "decreases"):
                        result.append(ts[k])
                        k += 1
                while ts[k] in ("requires", "ensures", "measure", "decreases"):
                    k = closing(ts, ts.index("{", k))
                if ts[k] != "{":
                    raise Unresolved(f"{before}::{name}: its body is not where it is looked for")
                end = closing(ts, k)
                full = f"{before}::{name}"
                self.functions[full] = (module, owner, params, result, ts[k + 1:end - 1])
                if owner:
                    self.methods.setdefault(name, []).append(full)
                i = end
            else:
                i += 1

    def resolve(self, module, owner, path):
        """The full path of a name as it stands in a module."""
        first, rest = path[0], path[1:]
        if first == "Self":
            return "::".join([module, owner, *rest])
        if first == "crate":
            return "::".join([module.split("::")[0], *rest])
        if first in self.uses[module]:
            return "::".join([self.uses[module][first], *rest])
        here = "::".join([module, *path])
        if here in self.functions or here in self.types or here in self.consts or "::".join([module, first]) in self.types:
            return here
        return "::".join(path)


class Search:
    def __init__(self, sources):
        self.s, self.seen, self.found, self.todo = sources, {}, [], []

    def number(self, module, owner, ts):
        """The value of a length: numbers, constants, sums and products."""
        out, i = "", 0
        while i < len(ts):
            t = ts[i]
            if re.fullmatch(r"0[xX][0-9a-fA-F_]+|\d[\d_]*", t):
                out += str(int(t.replace("_", ""), 0))
                i += 1
            elif t in "+-*()/":
                out += "//" if t == "/" else t
                i += 1
            elif re.match(r"[^\W\d]", t):
                path, i = self.path(ts, i)
                full = self.s.resolve(module, owner, path)
                if full not in self.s.consts:
                    raise Unresolved(f"the length {'::'.join(path)}")
                m, o, _, value = self.s.consts[full]
                out += f"({self.number(m, o, value)})"
            else:
                raise Unresolved(f"the length {' '.join(ts)}")
        return eval(out)

    @staticmethod
    def path(ts, i):
        path = [ts[i]]
        while i + 2 < len(ts) and ts[i + 1] == "::":
            path.append(ts[i + 2])
            i += 2
        return path, i + 1

    def type(self, where, module, owner, ts):
        """A type by value: its own arrays of bytes, and those of what it holds. What is lent is not held."""
        i = 0
        while i < len(ts):
            t = ts[i]
            if t == "&":
                i += 1
                while ts[i] in ("mut",) or ts[i].startswith("'"):
                    i += 1
                i = closing(ts, i) if ts[i] == "[" else self.path(ts, i)[1]
            elif t == "[":
                end = closing(ts, i)
                inner = ts[i + 1:end - 1]
                depth, split = 0, None
                for j, u in enumerate(inner):
                    depth += (u in "([{") - (u in ")]}")
                    if u == ";" and depth == 0:
                        split = j
                if split is None:
                    raise Unresolved(f"{where}: the type {' '.join(ts)}")
                n = self.number(module, owner, inner[split + 1:])
                if inner[:split] in (["u8"], ["i8"], ["bool"]) and n > LIMIT:
                    self.found.append(f"{where}: an array of {n} bytes")
                self.type(where, module, owner, inner[:split])
                i = end
            elif t in NUMBERS or t in "(),<>" or t in ("mut", "Option", "Result") or t.startswith("'") or re.fullmatch("[A-Z]", t):
                i += 1
            else:
                path, i = self.path(ts, i)
                self.made(where, self.s.resolve(module, owner, path))

    def made(self, where, full):
        """A struct or an enum, field by field."""
        if full not in self.s.types:
            raise Unresolved(f"{where}: the type {full}")
        if ("type", full) in self.seen:
            if self.seen["type", full]:
                self.found.append(f"{where}: holds {full}, which has an array above {LIMIT} bytes")
            return
        self.seen["type", full] = False
        before = len(self.found)
        kind, module, ts = self.s.types[full]
        i = 0
        while i < len(ts):
            if ts[i] == "#":
                i = closing(ts, i + 1)
            elif ts[i] == ":":
                end, depth = i + 1, 0
                while end < len(ts) and not (ts[end] == "," and depth == 0) and not (ts[end] in ")}" and depth == 0):
                    depth += (ts[end] in "([{") - (ts[end] in ")]}")
                    end += 1
                self.type(full, module, None, ts[i + 1:end])
                i = end
            elif kind == "enum" and ts[i] == "(":
                end = closing(ts, i)
                self.type(full, module, None, ts[i + 1:end - 1])
                i = end
            elif kind == "struct" and ts[i] not in (",", "pub") and ":" not in ts:
                self.type(full, module, None, [t for t in ts[i:] if t != "pub"])
                break
            else:
                i += 1
        self.seen["type", full] = len(self.found) > before

    def constant(self, full):
        if ("const", full) in self.seen:
            return
        self.seen["const", full] = True
        module, owner, kind, value = self.s.consts[full]
        self.type(full, module, owner, kind)
        self.body(full, module, owner, value)

    def function(self, full):
        if ("fn", full) in self.seen:
            return
        self.seen["fn", full] = True
        if full not in self.s.functions:
            raise Unresolved(f"there is no function {full}")
        module, owner, params, result, body = self.s.functions[full]
        depth, start, parts = 0, 0, []
        for j, t in enumerate(params + [","]):
            depth += (t in "([{<") - (t in ")]}>")
            if t == "," and depth == 0:
                parts.append(params[start:j])
                start = j + 1
        for part in parts:
            if ":" in part:
                self.type(full, module, owner, part[part.index(":") + 1:])
            elif part not in ([], ["self"], ["mut", "self"], ["&", "self"]):
                raise Unresolved(f"{full}: the parameter {' '.join(part)}")
        if owner and any("self" in p for p in parts):
            self.made(full, f"{module}::{owner}")
        self.type(full, module, owner, result)
        self.body(full, module, owner, body)

    def body(self, full, module, owner, ts):
        i = 0
        while i < len(ts):
            t = ts[i]
            if t.startswith('b"'):
                n = len(re.findall(r"\\x..|\\.|[^\\]", t[2:-1]))
                if n > LIMIT:
                    self.found.append(f"{full}: a byte string of {n} bytes")
                i += 1
            elif t == "#":
                raise Unresolved(f"{full}: an attribute within the body")
            elif t == "let":
                i += 1
                while ts[i] not in (":", "=", ";"):
                    i = closing(ts, i) if ts[i] in "([{" else i + 1
                if ts[i] == ":":
                    end = i + 1
                    while ts[end] not in ("=", ";"):
                        end = closing(ts, end) if ts[end] == "[" else end + 1
                    self.type(full, module, owner, ts[i + 1:end])
                    i = end
            elif t == "[" and (i == 0 or not (re.match(r"\w", ts[i - 1]) and ts[i - 1] not in KEYWORDS or ts[i - 1] in (")", "]"))):
                self.array(full, module, owner, ts[i + 1:closing(ts, i) - 1])
                i += 1
            elif t == "." and i + 2 < len(ts) and re.match(r"[^\W\d]", ts[i + 1]) and ts[i + 2] == "(":
                self.method(full, module, owner, ts, i)
                i += 2
            elif re.match(r"[^\W\d]", t) and t not in KEYWORDS - {"Self", "crate"} and (i == 0 or ts[i - 1] not in (".", "'")):
                path, i = self.path(ts, i)
                self.named(full, module, owner, path, ts[i] if i < len(ts) else "")
            else:
                i += 1

    def array(self, full, module, owner, inner):
        """An array expression: [v; n], or its elements."""
        depth, split, commas = 0, None, 0
        for j, t in enumerate(inner):
            depth += (t in "([{") - (t in ")]}")
            if t == ";" and depth == 0:
                split = j
            commas += t == "," and depth == 0
        n = self.number(module, owner, inner[split + 1:]) if split is not None else commas + (bool(inner) and inner[-1] != ",")
        element = inner[:split] if split is not None else inner
        # Elements that are structs are no bytes; what they hold is looked at where they are made.
        if n > LIMIT and not (len(element) > 1 and element[1] in ("{", "::") and element[0][0].isupper()):
            self.found.append(f"{full}: an array expression of {n} elements")

    def method(self, full, module, owner, ts, i):
        name = ts[i + 1]
        # `take` is a method of the book too: behind another call it is the iterator's.
        if name in STD_METHODS and (name not in self.s.methods or ts[i - 1] == ")"):
            return
        if ts[i - 1] == "self" and owner:
            self.todo.append(f"{module}::{owner}::{name}")
            return
        if name == "map" and name not in self.s.methods:
            self.mapped(full, ts, i)
            return
        known = self.s.methods.get(name)
        if not known:
            raise Unresolved(f"{full}: the method {name}")
        self.todo.extend(known)

    def mapped(self, full, ts, i):
        """`map` of an array that is a field: each array that a field of that name is has at most so many elements."""
        field = ts[i - 1]
        lengths = [
            held[held.index(";", j):closing(held, j + 2) - 1][1:]
            for _, _, held in self.s.types.values()
            for j in range(len(held) - 2)
            if held[j:j + 3] == [field, ":", "["]
        ]
        if ts[i - 2] != "." or not lengths or not all(len(n) == 1 and n[0].isdigit() for n in lengths):
            raise Unresolved(f"{full}: the method map")
        most = max(int(n[0]) for n in lengths)
        if most > LIMIT:
            self.found.append(f"{full}: an array of {most} elements made by map")

    def named(self, full, module, owner, path, after):
        target = self.s.resolve(module, owner, path)
        if after == "!" and path == ["matches"]:
            return  # a test; its words are read as any others
        if after == "!":
            raise Unresolved(f"{full}: the macro {path[-1]}")
        if target in self.s.statics and after == "[":
            return  # one element of it: a static is not laid out anew where it is used
        if target in self.s.consts:
            self.constant(target)
        elif target in self.s.types:
            # A struct that is made, a tuple struct, or a pattern of one.
            self.made(full, target)
        elif target.rpartition("::")[0] in self.s.types and target.rpartition("::")[2] in self.s.types[target.rpartition("::")[0]][2]:
            self.made(full, target.rpartition("::")[0])
        elif target in self.s.functions:
            self.todo.append(target)
        elif target.startswith("std::num::") and after == "(":
            self.seen["fn", target + " (kit)"] = True
        elif path in (["Some"], ["Ok"], ["Err"]) and after == "(":
            return  # std's variants: made of what stands in the parentheses, or a pattern
        elif after == "(":
            raise Unresolved(f"{full}: the call {'::'.join(path)}")
        elif len(path) > 1:
            raise Unresolved(f"{full}: the name {'::'.join(path)}")
        # Else a local, a parameter or a field.

    def run(self, starts):
        self.todo = list(starts)
        while self.todo:
            self.function(self.todo.pop())


def search(root, starts, out=None):
    """What is wrong below a folder that has crates/*/src: arrays found, or what could not be resolved."""
    try:
        looker = Search(Sources(root))
        more = sorted(f for f in looker.s.functions if f.startswith(tuple(BOX)) and re.search(r"::send\w*$", f))
        looker.run(starts + more)
    except Unresolved as e:
        return [f"not resolved: {e}"]
    if out is not None:
        names = sorted(n for k, n in looker.seen if k == "fn")
        consts = sorted(n for k, n in looker.seen if k == "const")
        out.append(f"copies: looked at {len(names)} functions from {', '.join(s.split('::', 1)[1] for s in starts + more)}:")
        out.extend(f"  {n}" for n in names)
        out.append(f"copies: and at {len(consts)} constants: {', '.join(consts)}")
    return looker.found


# Planted sources: what stands in the callee two calls down, and whether it has to be found.
PLANTED = [
    ("an array of 65 bytes in a callee", "let b: [u8; 65] = [0; 65]; x[0] = b[1];", "", True),
    ("one without its type", "let b = [0; 65]; x[0] = b[1];", "", True),
    ("one as a struct's field", "let h = Held { one: Inner { held: lent() } }; use_it(h);", "", True),
    ("a constant array", "x[0] = TABLE[1];", "", True),
    ("a static taken whole", "let b = LASTING; x[0] = b[1];", "", True),
    ("a constant of a sum", "x[0] = SUMS[1];", "", True),
    ("a byte string", 'x[0] = b"' + "x" * 65 + '"[1];', "", True),
    ("a parameter by value", "", "b: [u8; 65]", True),
    ("a call that leads nowhere", "elsewhere(x);", "", True),
    ("a method that is not there", "x.copy_from_slice(x);", "", True),
    ("one that map makes of a lent one", "let c = b.map(|y| y); x[0] = c[1];", "b: &[u8; 65]", True),
    ("one that map makes of a field", "let c = b.held.map(|y| y); x[0] = c[1];", "b: &Inner", True),
    ("one of 8 that map makes of a field", "let c = b.kept.map(|y| y); x[0] = c[1];", "b: &Small", False),
    ("an array of 64 bytes", "let b: [u8; 64] = [0; 64]; x[0] = b[1];", "", False),
    ("an element of a static", "x[0] = LASTING[1];", "", False),
    ("a constant of 64", "x[0] = FEW[1];", "", False),
    ("a lent array of 65", "", "b: &[u8; 65]", False),
]


def planted(code, parameter):
    lib = f"""
const SIXTY: usize = 60;
const TABLE: [u8; 65] = [0; 65];
static LASTING: [u8; 65] = [0; 65];
const SUMS: [u8; SIXTY + 5] = [0; SIXTY + 5];
const FEW: [u8; 64] = [0; 64];
pub struct Inner {{ held: [u8; 65], }}
pub struct Held {{ one: Inner, }}
pub struct Small {{ kept: [u16; 8], }}
fn lent() -> usize {{ 0 }}
fn use_it(h: usize) {{}}
fn deep(x: &mut [u8]{', ' + parameter if parameter else ''}) {{ {code} }}
fn between(x: &mut [u8]) ensures {{ λ _. ⌜ [u8; 99] ⌝ }} {{ deep(x); }}
pub fn send(x: &mut [u8]) {{ between(x); }}
"""
    with tempfile.TemporaryDirectory() as folder:
        src = pathlib.Path(folder) / "crates" / "one" / "src"
        src.mkdir(parents=True)
        (src / "lib.rt").write_text(lib)
        return search(pathlib.Path(folder), ["one::send"])


def selftest():
    wrong = 0
    for what, code, parameter, bad in PLANTED:
        found = planted(code, parameter)
        if bool(found) != bad:
            wrong += 1
            print(f"copies: {what}: {'not found' if bad else found}")
    print(f"copies: {len(PLANTED)} planted sources, {wrong} judged wrongly")
    return wrong


def main(words):
    if words not in ([], ["--selftest"]):
        print(__doc__, file=sys.stderr)
        return 2
    if words and selftest():
        return 1
    lines = []
    found = search(pathlib.Path(__file__).resolve().parent.parent, STARTS, lines)
    print("\n".join(lines + [f"copies: {f}" for f in found]))
    print(f"copies: {len(found)} byte arrays above {LIMIT} bytes")
    return 1 if found else 0


if __name__ == "__main__":
    sys.exit(main(sys.argv[1:]))
