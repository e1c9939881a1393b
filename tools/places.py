#!/usr/bin/env python3
"""Counts, in crates/*/src/*.rt of a checkout, the places of each of the eight points of docs/DESIGN-PASS.md.

  tools/places.py CHECKOUT

Each rule is stated above its hits. A hit is one line: crate/file:line name, and what was found. Where a comment `// Kept:` stands in the
function or struct of a hit, or right above it, the hit ends with that comment. Where REASONS below has the hit, it ends with the reason.
The last table has the counts.
"""
import re
import subprocess
import sys
from collections import Counter, defaultdict
from itertools import combinations
from pathlib import Path

ROOT = Path(sys.argv[1])

# Hits that are no place of their point: (rule, crate or crate/file, pattern of the name) and why.
REASONS = [
    ("1c", "peripheral_channel/record.rt", "Channel", "two flags and a word of a device, not an Option"),
    ("1c", "floating_", "Sum|Number|Total|Aligned", "a sign beside a size: both signs have one"),
    ("1c", "whole_device/calls.rt", "Taken", "both are always there: the word, and whether it is a function"),
    ("1b", "peripheral_machine/effect.rt", "PeripheralEffect", "to wait is what a code asks for, not a failure"),
    ("1a", "check_console/cases.rt", "Marker", "how much of a marker was seen, and which kind of line it ends: neither is a failure"),
    ("1d", "exchange_package|whole_record", "control|number_of", "the number of a place in a package or a record"),
    ("4c", "check_probe/call.rt", "of", "a discriminant gives numbers of kinds, not kinds of numbers"),
    ("1d", "word_arithmetic|central_condition|central_codes|central_effect|peripheral_", ".*", "the digits of an instruction, which a word holds"),
    ("1d", "check_probe", "of", "the one place where a number of a line becomes a kind"),
    ("7b", "central_effect|peripheral_", ".*", "a code of the machine for each arm, each with arguments of its own"),
]

PRIMITIVE = {"u8", "u16", "u32", "u64", "u128", "usize", "i8", "i16", "i32", "i64", "bool"}


def without_comments(text):
    """The text with `//` comments blanked, each line in its place."""
    out = []
    for line in text.split("\n"):
        cut, quoted = len(line), False
        for i, c in enumerate(line):
            if c == '"' and line[i - 1:i] not in ("'", "\\"):
                quoted = not quoted
            if not quoted and line.startswith("//", i):
                cut = i
                break
        out.append(line[:cut])
    return "\n".join(out)


def closing(text, i):
    """The place after the bracket that closes the one at i."""
    pairs, depth = {"(": ")", "{": "}", "[": "]"}, 0
    opened, closed = text[i], pairs[text[i]]
    for k in range(i, len(text)):
        if text[k] == opened:
            depth += 1
        elif text[k] == closed:
            depth -= 1
            if depth == 0:
                return k + 1
    return len(text)


def split_top(text, mark):
    """The parts of a text between marks that stand in no bracket."""
    parts, depth, last = [], 0, 0
    for i, c in enumerate(text):
        if c in "([{<" and not text.startswith("<", i):
            depth += 1
        elif c in ")]}":
            depth -= 1
        elif c == "<" and mark == ",":
            depth += 1
        elif c == ">" and mark == "," and text[i - 1:i] not in ("-", "="):
            depth -= 1
        elif text.startswith(mark, i) and depth == 0:
            parts.append(text[last:i])
            last = i + len(mark)
    return [p.strip() for p in parts + [text[last:]] if p.strip()]


class Function:
    def __init__(self, file, line, end, name, params, result, requires, ensures, body):
        self.file, self.line, self.end, self.name = file, line, end, name
        self.params, self.result, self.requires, self.ensures, self.body = params, result, requires, ensures, body

    def types(self):
        return dict(self.params)


class Struct:
    def __init__(self, file, line, end, name, fields):
        self.file, self.line, self.end, self.name, self.fields = file, line, end, name, fields


class Enum:
    def __init__(self, file, line, end, name, variants):
        self.file, self.line, self.end, self.name, self.variants = file, line, end, name, variants


class File:
    def __init__(self, path):
        self.crate = path.relative_to(ROOT / "crates").parts[0]
        self.short = f"{self.crate}/{path.relative_to(ROOT / 'crates' / self.crate / 'src')}"
        self.raw = path.read_text()
        self.text = without_comments(self.raw)
        self.lines = self.raw.split("\n")
        self.functions, self.structs, self.enums = [], [], []
        self.read_functions()
        self.read_types()

    def line_at(self, i):
        return self.text.count("\n", 0, i) + 1

    def owner(self, i):
        """The type of the `impl` or the trait in which this place stands, if it is indented."""
        heads = [m for m in re.finditer(r"^(?:pub(?:\(\w+\))? )?(?:impl(?:<[^{]*?>)? |trait )([^{\n]*)", self.text[:i], re.M)]
        if not heads or closing(self.text, self.text.index("{", heads[-1].start())) < i:
            return ""
        head = heads[-1].group(1).split(" where")[0].split(" for ")[-1]
        return re.match(r"\w+", head.strip().lstrip("&")).group(0) + "::"

    def read_functions(self):
        for m in re.finditer(r'^([ ]*)(?:pub(?:\(\w+\))? )?(?:const )?(?:extern "C" )?(?:final )?fn (\w+)', self.text, re.M):
            open_at = self.text.find("(", m.end())
            params_end = closing(self.text, open_at)
            params = []
            for part in split_top(self.text[open_at + 1:params_end - 1], ","):
                name, _, kind = part.partition(":")
                params.append((name.replace("mut ", "").strip(), " ".join(kind.split())))
            at, requires, ensures, result, body, end = params_end, [], [], "", None, params_end
            while True:
                nxt = re.compile(r"[{;]").search(self.text, at)
                if not nxt:
                    break
                head = self.text[at:nxt.start()].strip()
                if not result and head.startswith("->"):
                    result = re.split(r"\b(requires|ensures|where|ghost)\b", head[2:])[0].strip()
                end = nxt.end()
                if nxt.group() == ";":
                    break
                end = closing(self.text, nxt.start())
                inner = self.text[nxt.start() + 1:end - 1].strip()
                clause = re.search(r"\b(requires|ensures|ghost)\b\*?( \w+:?)?\s*$", head)
                if not clause:
                    body = inner
                    break
                if clause.group(1) == "requires":
                    requires.append(" ".join(inner.split()))
                elif clause.group(1) == "ensures":
                    ensures.append(" ".join(inner.split()))
                at = end
            name = (self.owner(m.start()) if m.group(1) else "") + m.group(2)
            self.functions.append(
                Function(self, self.line_at(m.start()), self.line_at(end), name, params, result, requires, ensures, body)
            )

    def read_types(self):
        for m in re.finditer(r"^(?:pub(?:\(\w+\))? )?(struct|enum) (\w+)[^;{(]*\{", self.text, re.M):
            end = closing(self.text, m.end() - 1)
            inner = self.text[m.end():end - 1]
            line, last = self.line_at(m.start()), self.line_at(end)
            parts = split_top(inner, ",")
            if m.group(1) == "struct":
                fields = [re.match(r"(?:pub(?:\(\w+\))? )?(\w+)\s*:\s*(.*)", p, re.S) for p in parts if not p.startswith("ghost")]
                self.structs.append(Struct(self, line, last, m.group(2), [(f.group(1), f.group(2)) for f in fields if f]))
            else:
                variants = [re.match(r"(?:#\[[^\]]*\]\s*)*(\w+)\s*(\(|\{)?", p) for p in parts]
                self.enums.append(Enum(self, line, last, m.group(2), [(v.group(1), bool(v.group(2))) for v in variants if v]))

    def kept(self, line, end):
        """A comment `// Kept:` from five lines above the first line to the last."""
        for k in range(max(0, line - 6), min(end, len(self.lines))):
            m = re.search(r"// (Kept:.*)", self.lines[k])
            if m:
                return m.group(1)
        return ""


FILES = [File(p) for p in sorted((ROOT / "crates").glob("*/src/**/*.rt"))]
FUNCTIONS = [f for file in FILES for f in file.functions]
STRUCTS = [s for file in FILES for s in file.structs]
ENUMS = [e for file in FILES for e in file.enums]
ALIASES = {m.group(1): m.group(2) for file in FILES for m in re.finditer(r"^(?:pub(?:\(\w+\))? )?type (\w+) = ([^;]*);", file.text, re.M)}
COUNTS = []


def reason(rule, place, name):
    for r, where, pattern, why in REASONS:
        if r == rule and re.match(where, place) and re.fullmatch(pattern, name.split("::")[-1]):
            return f"no place: {why}"
    return ""


def report(rule, title, hits):
    """Prints the rule and its hits, each (file, line, end, name, what), and keeps the count."""
    print(f"\n{rule}. {title}")
    listed = set()
    open_places = kept_places = 0
    for file, line, end, name, what in sorted(hits, key=lambda h: (h[0].short, h[1], h[4])):
        key = (file.short, line, name, what)
        if key in listed:
            continue
        listed.add(key)
        why = file.kept(line, end) or reason(rule, file.short, name)
        open_places += not why
        kept_places += bool(why)
        print(f"  {file.short}:{line} {name}{': ' + what if what else ''}{'  [' + why + ']' if why else ''}")
    print(f"  = {open_places}" + (f", and {kept_places} with a reason" if kept_places else ""))
    COUNTS.append((rule, title if len(title) < 90 else title[:title.rfind(" ", 0, 90)] + " ..", open_places, kept_places))


def of(function, what=""):
    return (function.file, function.line, function.end, function.name, what)


def spans(function, pattern, flags=re.S):
    """The matches of a pattern in a function's body."""
    return list(re.finditer(pattern, function.body or "", flags))


def blocks(body, head):
    """Each block of the body that begins with this head: the match and the text between its braces."""
    for m in re.finditer(head + r"\s*\{", body):
        end = closing(body, m.end() - 1)
        yield m, body[m.end():end - 1], body[end:]


def arms(block):
    """The arms of a match: pattern and expression."""
    found, at = [], 0
    while True:
        m = re.compile(r"\s*(.+?)\s*=>\s*", re.S).match(block, at)
        if not m:
            return found
        start = m.end()
        if block.startswith("{", start):
            end = closing(block, start)
            found.append((m.group(1), block[start + 1:end - 1].strip()))
            at = end + (block[end:end + 1] == ",")
        else:
            rest = split_top(block[start:], ",")
            if not rest:
                return found
            found.append((m.group(1), rest[0]))
            at = block.index(rest[0], start) + len(rest[0])
            at += block[at:at + 1] == ","


def matches(function):
    for m, block, _ in blocks(function.body or "", r"\bmatch ([^{;]+?)"):
        yield m.group(1).strip(), arms(block)


# 1: Option and Result


def point_1():
    hits = [(e.file, e.line, e.end, e.name, " | ".join(v + ("(..)" if p else "") for v, p in e.variants))
            for e in ENUMS if len(e.variants) == 2 and any(p for _, p in e.variants)]
    report("1a", "enums of two variants, of which one or both hold a value: the shape of Option or Result", hits)
    bad = r"Unreadable|NotOctal|None|Nothing|Refused|Wait|Outside|Unfit|Invalid|NoNumber|Missing"
    hits = [(e.file, e.line, e.end, e.name, ", ".join(v for v, _ in e.variants))
            for e in ENUMS if len(e.variants) > 2 and any(p for _, p in e.variants) and any(re.fullmatch(bad, v) for v, _ in e.variants)]
    report("1b", f"enums of more variants, with one for what is not there or not right ({bad.replace('|', ', ')})", hits)
    hits = []
    own = {e.name for e in ENUMS if len(e.variants) == 2 and any(p for _, p in e.variants)}
    for s in STRUCTS:
        flags = [n for n, t in s.fields if t == "bool"]
        verdicts = [n for n, t in s.fields if t.startswith("Result<(), ") or t in own and n == "verdict"]
        others = [n for n, _ in s.fields if n not in flags + verdicts]
        if (len(flags) == 1 or verdicts) and others:
            hits.append((s.file, s.line, s.end, s.name, f"{', '.join(flags + verdicts)} beside {', '.join(others)}"))
    report("1c", "structs with one flag (bool) or a verdict beside a value", hits)
    hits = []
    for f in FUNCTIONS:
        for on, found in matches(f):
            numbers = [p for p, _ in found if re.fullmatch(r"[0-9][0-9a-fox_|. ]*", p)]
            if len(numbers) >= 3:
                hits.append(of(f, f"match {on}, {len(numbers)} arms with numbers"))
        tests = Counter(m.group(1) for m in spans(f, r"if (\w+) == \d+ \{"))
        hits += [of(f, f"if {n} == .., {k} times") for n, k in tests.items() if k >= 2]
    report("1d", "numbers for kinds: a match with three or more number arms, or two or more `if n == 3 {`", hits)


# 2: twins

WORDS = {"central": "SIDE", "peripheral": "SIDE"}


def normal(function, deep):
    """The body with literals, number types, digits of names and local names made alike; deep: names of types and constants too."""
    text = " ".join(t for _, t in function.params) + " -> " + function.result + " { " + function.body + " }"
    local = {n for n, _ in function.params}
    local |= set(re.findall(r"\b(?:let|for)\s+(?:mut\s+)?(\w+)", function.body)) | set(re.findall(r"\|(\w+)\|", function.body))
    seen, out = {}, []
    for token in re.findall(r"0[xob][0-9a-f_]+|\d[\d_]*|\w+|[^\s\w]", text):
        if token[0].isdigit():
            out.append("0")
        elif token in PRIMITIVE:
            out.append("T")
        elif token in local and token != "self":
            out.append(f"v{seen.setdefault(token, len(seen))}")
        elif deep and token[0].isupper():
            out.append("X")
        else:
            token = re.sub(r"\d+", "", token)
            out.append("_".join(WORDS.get(w, w) for w in token.split("_")) if deep else token)
    return " ".join(out)


def twins(deep, least):
    groups = defaultdict(list)
    for f in FUNCTIONS:
        if f.body and len(re.findall(r"\w+|[^\s\w]", f.body)) >= least:
            groups[normal(f, deep)].append(f)
    return [g for g in groups.values() if len(g) > 1]


def point_2():
    plain = twins(False, 12)
    report("2a", "functions with bodies alike but for literals, number types and digits in names (12 tokens or more)",
           [of(f, "like " + ", ".join(f"{o.file.short} {o.name}" for o in g if o is not f)) for g in plain for f in g])
    known = {id(f) for g in plain for f in g}
    report("2b", "further functions with bodies alike but also for names of types and constants, and central for peripheral (20 tokens or more)",
           [of(f, "like " + ", ".join(f"{o.file.short} {o.name}" for o in g if o is not f))
            for g in twins(True, 20) for f in g if any(id(o) not in known for o in g)])
    texts = defaultdict(list)
    for file in FILES:
        if file.functions:
            texts[file.text].append(file)
    report("2c", "files with functions that are the same", [(f, 1, 1, "", "like " + ", ".join(o.short for o in g if o is not f)) for g in texts.values() if len(g) > 1 for f in g])
    names = defaultdict(list)
    for f in FUNCTIONS:
        base = re.sub(r"\d+$", "", f.name)
        if base != f.name and f.body:
            names[f.file.short, base].append(f)
    report("2d", "functions of one file whose names differ only in a number at the end",
           [of(f, "beside " + ", ".join(o.name for o in g if o is not f)) for g in names.values() if len({f.name for f in g}) > 1 for f in g])


# 3: loops


def point_3():
    hits, other = [], []
    for f in FUNCTIONS:
        for m, block, _ in blocks(f.body or "", r"\bwhile ([^{]+?)"):
            condition = m.group(1).strip()
            steps = re.findall(r"\b([\w.]+) = \1 [-+] \w+;|\b([\w.]+) [-+]= \w+;", block)
            counted = [a or b for a, b in steps if re.search(rf"\b{re.escape(a or b)}\b", condition)]
            (hits if counted else other).append(of(f, f"while {condition}"))
    report("3a", "`while` with an index that is counted by hand (`i = i + 1`, `i += 1`, `i - 1` of a name in the condition)", hits)
    report("3b", "other `while` and `loop`", other + [of(f, "loop") for f in FUNCTIONS for _ in blocks(f.body or "", r"\bloop")])
    hits = []
    for f in FUNCTIONS:
        for m, block, _ in blocks(f.body or "", r"\bfor (\w+) in ([^{]+?\.\.[^{]*?)"):
            name, uses = m.group(1), re.findall(rf"\b{m.group(1)}\b", block)
            inside = re.findall(rf"\[[^\[\]]*\b{name}\b[^\[\]]*\]", block)
            if re.search(rf"\b{name} [/%] \d", block):
                hits.append(of(f, f"for {name} in {m.group(2).strip()}: {name} is divided by hand"))
            elif name != "_" and uses and len(inside) == len(uses) and not re.search(rf"\[[^\]]*\b{name}\b[^\]]*[-+*][^\]]*\]", block):
                hits.append(of(f, f"for {name} in {m.group(2).strip()}: only an index"))
    copies = [of(f, " ".join(m.group(0).split())) for f in FUNCTIONS for _, block, _ in blocks(f.body or "", r"\b(?:while|for) ([^{]+?)")
              for m in re.finditer(r"(?<![\w.])([\w.]+\[[^\]]+\]) = (?:0|[\w.]+\[[^\]]+\]);", block)]
    report("3c", "`for` over a range whose number is divided by hand, or is nothing but an index", hits)
    report("3d", "loops that write an element of one array into another, or zero: fill, copy_from_slice, zip by hand", copies)


# 4: equality, order, conversion


def point_4():
    hits = [of(f, f"match {on}") for f in FUNCTIONS for on, found in matches(f) if found and all(e in ("true", "false") for _, e in found)]
    report("4a", "`match` whose arms are true and false", hits)
    report("4b", "`if .. { return true; }` before `true` or `false`",
           [of(f, " ".join(m.group(0).split())[:70]) for f in FUNCTIONS for m in spans(f, r"if [^{};]+\{\s*return (?:true|false);\s*\}")])
    hits = []
    for f in FUNCTIONS:
        for on, found in matches(f):
            if len(found) >= 3 and all(re.fullmatch(r"\d[\w]*", e) for _, e in found):
                hits.append(of(f, f"match {on}, {len(found)} arms to numbers"))
            elif len(found) >= 3 and all(re.fullmatch(r"\d[\w]*|_", p) and re.fullmatch(r"(\w+::\w+|(Some|Ok)\(\w+::\w+\)|None)", e) for p, e in found):
                hits.append(of(f, f"match {on}, {len(found)} arms from numbers"))
    report("4c", "kinds to numbers or numbers to kinds by an arm each, where a derive or a discriminant says it", hits)
    report("4d", "functions that are named for what std or a derive has (same, equal, eq, less, min, max, clone, copy, or with a further word)",
           [of(f) for f in FUNCTIONS if re.fullmatch(r"(?:\w+::)?(is_)?(same|equal|equals|eq|less|min|max|clone|copy|copied)(_\w+)?", f.name)
            and "Clone" not in f.name])
    report("4e", "`if a < b { return a; } b`: min and max by hand",
           [of(f, " ".join(m.group(0).split())) for f in FUNCTIONS
            for m in spans(f, r"if ([\w.()]+) <=? ([\w.()]+) \{\s*(?:return )?(?:\1|\2);?\s*\}(?: else \{)?\s*(?:\1|\2)\s*\}?$")])
    report("4f", "`if b { 1 } else { 0 }` for `u64::from(b)`, and `b as u64` of a smaller type",
           [of(f, " ".join(m.group(0).split())) for f in FUNCTIONS
            for m in spans(f, r"if [^{};]+\{\s*(?:return )?1;?\s*\}(?: else \{)?\s*0\b")])
    report("4g", "`x = x + y` for `x += y`",
           [of(f, m.group(0)) for f in FUNCTIONS for m in spans(f, r"(?<![\w.])([\w.\[\]]+) = \1 (?:[-+*/%|&^]|<<|>>) [^;=]+;")])
    report("4h", "`if a { return x; } if b { return x; }` for `a || b`",
           [of(f, m.group(1)) for f in FUNCTIONS for m in spans(f, r"\{\s*return ([^;{}]+);\s*\}\s*(?=if [^{}]+\{\s*return \1;\s*\})")])
    report("4i", "`&mut *x` and `&*x` of a plain variable in a call",
           [of(f, f"{len(found)} times") for f in FUNCTIONS if (found := spans(f, r"[(,]\s*&(?:mut )?\*\w+\s*(?=[,)])"))])
    hits = []
    for f in FUNCTIONS:
        small = {n: t for n, t in f.params if t in ("bool", "u8", "u16", "u32")}
        for m in spans(f, r"(?<![\w.])(\w+) as (u16|u32|u64)\b"):
            if m.group(1) in small and small[m.group(1)] != m.group(2):
                hits.append(of(f, f"{m.group(0)}, of {small[m.group(1)]}"))
    report("4j", "`x as u64` of a parameter of a smaller type, where `u64::from(x)` says that nothing is lost", hits)


# 5: facts and parameters that go together


def facts(function):
    """The parts of the `requires` that speak of parameters, with each parameter named by its type."""
    found = []
    for clause in function.requires:
        for part in split_top(clause, "×"):
            while part.startswith("(") and closing(part, 0) == len(part):
                part = part[1:-1].strip()
            for inner in split_top(part, "×"):
                while inner.startswith("(") and closing(inner, 0) == len(inner):
                    inner = inner[1:-1].strip()
                text = inner
                for name, kind in function.params:
                    short = kind.replace("mut ", "").lstrip("&") if name.strip("&").strip() != "self" else "self"
                    text = re.sub(rf"(?<![\w.]){re.escape(name.strip('&').strip())}\b", f"‹{short}›", text)
                if text != inner:
                    found.append((text, inner))
    return found


def point_5():
    where = defaultdict(list)
    for f in FUNCTIONS:
        for text, inner in facts(f):
            where[f.file.crate, text.replace(".old", ".now")].append((f, inner))
    hits = [of(f, f"{text}  ({len({o.name for o, _ in users})} functions)")
            for (_, text), users in where.items() if len({(o.file.short, o.name) for o, _ in users}) >= 3 for f, _ in users]
    report("5a", "facts of a `requires` that stand in three or more contracts of one crate, ‹type› for the parameter: each function", hits)
    COUNTS.append(("5a", "the same: facts", len({(f.crate, what) for f, _, _, _, what in hits}), 0))
    by_crate, hits, groups = defaultdict(list), [], 0
    for f in FUNCTIONS:
        names = frozenset((n, t) for n, t in f.params if n.strip("&").strip() not in ("self", "output", "input"))
        if len(names) >= 3:
            by_crate[f.file.crate].append((f, names))
    for users in by_crate.values():
        candidates = {a & b for (_, a), (_, b) in combinations(users, 2) if len(a & b) >= 3}
        counted = {c: [f for f, names in users if c <= names] for c in candidates}
        counted = {c: fs for c, fs in counted.items() if len(fs) >= 3}
        closed = [c for c in counted if not any(c < d and len(counted[d]) == len(counted[c]) for d in counted)]
        largest = [c for c in closed if not any(c < d for d in closed)]
        groups += len(largest)
        for c in largest:
            hits += [of(f, f"{', '.join(sorted(n for n, _ in c))}  ({len(counted[c])} functions)") for f in counted[c]]
    report("5b", "three or more parameters, of the same names and types, that occur together in three or more signatures of one crate: each function", hits)
    COUNTS.append(("5b", "the same: groups", groups, 0))


# 6: buffers, parallel arrays, searches


def is_array(kind):
    kind = kind.replace("mut ", "").lstrip("&").strip()
    kind = re.sub(r"^'\w+ ", "", kind).replace("mut ", "")
    return ALIASES.get(kind, kind).startswith("[")


def point_6():
    length = r"at|next|n|len|length|count|end|used|place|\w+_(?:len|length|count|used)"
    report("6a", "structs with an array or slice and its length or place beside",
           [(s.file, s.line, s.end, s.name, ", ".join(n for n, t in s.fields if is_array(t) or re.fullmatch(length, n)))
            for s in STRUCTS if any(is_array(t) for _, t in s.fields) and any(re.fullmatch(length, n) and t == "usize" for n, t in s.fields)])
    report("6b", "functions that take a `&mut` array or slice and a place or a length in it, and give the place after",
           [of(f, ", ".join(f"{n}: {t}" for n, t in f.params)) for f in FUNCTIONS if f.result == "usize" and any(is_array(t) and "&mut" in t for _, t in f.params)
            and any(re.fullmatch(length, n) and t == "usize" for n, t in f.params)])
    hits = []
    for s in STRUCTS:
        kinds = Counter(t for _, t in s.fields if is_array(t))
        hits += [(s.file, s.line, s.end, s.name, ", ".join(n for n, t in s.fields if t == kind)) for kind, k in kinds.items() if k >= 2]
    report("6c", "structs with two or more arrays or slices of one type: parallel arrays, if one index goes for both", hits)
    hits = []
    for f in FUNCTIONS:
        for m, block, _ in blocks(f.body or "", r"\b(?:while|for) ([^{]+?)"):
            if re.search(r"if [^{}]*\[[^{}]*== [^{}]*\{\s*return [^;]+;\s*\}|if \w+ == b'[^{}]*\{\s*return [^;]+;\s*\}", block):
                hits.append(of(f, " ".join(m.group(0).split())))
    report("6d", "searches by hand: a loop with `if xs[i] == y { return ..; }` or `if byte == b'y' { return ..; }`", hits)


# 7: switches and tables of functions


def point_7():
    report("7a", "function pointers, `dyn` and boxed closures", [of(f, m.group(0)) for f in FUNCTIONS for m in re.finditer(r"\bfn\(|\bdyn \w+|Box<", " ".join(t for _, t in f.params) + f.result)])
    hits = []
    for f in FUNCTIONS:
        for on, found in matches(f):
            calls = [e for _, e in found if re.fullmatch(r"(?:\w+::)*\w+\([^{}]*\)", e) and not re.match(r"(Some|Ok|Err|\w+::[A-Z]\w*)\(", e)]
            if len(calls) >= 4 and len(calls) >= len(found) - 1 and on in ("self", *[n for n, _ in f.params]):
                hits.append(of(f, f"match {on}, {len(calls)} calls"))
    report("7b", "a `match` on a parameter that chooses which of four or more functions is called", hits)
    hits = []
    for f in FUNCTIONS:
        for name, kind in f.params:
            if kind == "bool":
                hits += [of(f, f"if {name}") for m in spans(f, rf"if !?{name} \{{\s*(?:return )?[\w:]+\([^{{}}]*\);?\s*\}}(?: else \{{)?\s*[\w:]+\(")]
    report("7c", "a `bool` parameter that chooses which of two functions is called", hits)


# 8: proofs


def point_8():
    files = sorted(p for p in (ROOT / "crates").glob("*/proofs/**/*.antt"))
    by_kind, by_crate, long, texts = Counter(), Counter(), [], defaultdict(list)
    for p in files:
        lines = p.read_text().rstrip("\n").split("\n")
        crate = p.relative_to(ROOT / "crates").parts[0]
        kind = p.stem if p.stem in ("Answers", "Invariants", "Proof") else "lemmas"
        by_kind[kind, "files"] += 1
        by_kind[kind, "lines"] += len(lines)
        by_crate[crate] += len(lines)
        long.append((len(lines), str(p.relative_to(ROOT / "crates"))))
        if kind == "Answers":
            for m in re.finditer(r"^(?:pub )?([\w-]+) ((?:\w+ )*)= ?(.*(?:\n+[ ]+.*)*)", p.read_text(), re.M):
                texts[" ".join(m.group(3).split())].append((str(p.relative_to(ROOT / "crates")), m.group(1)))
    print("\n8a. files of proofs/, by kind")
    for kind in ("Answers", "Invariants", "Proof", "lemmas"):
        print(f"  {kind}: {by_kind[kind, 'files']} files, {by_kind[kind, 'lines']} lines")
    for kind in ("Answers", "Invariants", "Proof", "lemmas"):
        COUNTS.append(("8a", f"lines of {kind} files", by_kind[kind, "lines"], 0))
    print("  by crate: " + ", ".join(f"{c} {n}" for c, n in sorted(by_crate.items(), key=lambda i: (-i[1], i[0]))))
    print("\n8b. files of proofs/ by length, 20 lines or more")
    for n, p in sorted(long, key=lambda i: (-i[0], i[1])):
        if n >= 20:
            print(f"  {n:4} {p}")
    COUNTS.append(("8b", "files of proofs/ of 20 lines or more", sum(n >= 20 for n, _ in long), 0))
    print("\n8c. answers that stand word for word in three or more files")
    repeated = {t: ps for t, ps in texts.items() if len({p for p, _ in ps}) >= 3}
    for t, ps in sorted(repeated.items(), key=lambda i: -len(i[1])):
        print(f"  {len(ps)} times: {t[:110]}")
        print("      " + ", ".join(sorted(f"{p.removesuffix('/Answers.antt')} {n}" for p, n in ps)))
    COUNTS.append(("8c", "answers that are repeated in three or more files", len(repeated), 0))
    auto = Counter(m for file in FILES for m in re.findall(r"#\[tactic\(auto, (?:using|unfolding)", file.text))
    COUNTS.append(("8d", "functions with #[tactic(auto, using(..)) or unfolding(..))]", sum(auto.values()), 0))


def kept():
    print("\nPlaces that stay, by their comment")
    found = [(file.short, n, line.strip()) for file in FILES for n, line in enumerate(file.lines, 1) if "// Kept:" in line]
    for short, n, line in found:
        print(f"  {short}:{n} {line}")
    COUNTS.append(("", "comments `// Kept:`", len(found), 0))


print(f"crates/ of {ROOT}, commit {subprocess.run(['git', '-C', ROOT, 'log', '-1', '--format=%h of %cd'], capture_output=True, text=True).stdout.strip()}")
print(f"{len(FILES)} files, {sum(len(f.lines) - 1 for f in FILES)} lines, {len(FUNCTIONS)} functions, {len(STRUCTS)} structs, {len(ENUMS)} enums")
for point in (point_1, point_2, point_3, point_4, point_5, point_6, point_7, point_8):
    point()
kept()
print("\nCounts: rule, places without a reason, places with a reason, what is counted")
for rule, title, n, with_reason in COUNTS:
    print(f"  {rule:3} {n:6} {with_reason:6}  {title}")
