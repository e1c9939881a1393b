#!/usr/bin/env python3
"""Writes the repository's own definitions and lemmas in snake case, as today's Rattle spells words: isInfinite becomes is_infinite.

usage: python3 tools/snake_names.py [--dry]      at the top of the repository, once, after port.py

Names of types, facts and modules (upper camel case) stay, as do names of src/, strings, inputs and outputs. A dash in a lemma's
name joins two names, and each part is turned by itself. With --dry it writes nothing, and lists the names that fall together.
"""
import re
import sys
from pathlib import Path

NAME = re.compile(r"(?<![\w'·-])[a-z][A-Za-z0-9_']*(?:-[A-Za-z0-9_'≤<≡+*]+)*")
CAMEL = re.compile(r"(?<=[a-z0-9])([A-Z])")
# A lemma that would have its function's name gets `_lem`.
LEMMAS = {"from_parts": "from_parts_lem"}
LEMMA_FILES = ("crates/word_fields/specs/Laws/Fields.antt", "crates/peripheral_machine/specs/Laws/Frame.antt")


def part(word):
    return CAMEL.sub(lambda m: "_" + m.group(1).lower(), word) if word[:1].islower() else word


def turned(name):
    return "-".join(part(w) for w in name.split("-"))


def proof_files():
    return sorted(p for p in Path("crates").rglob("*.antt") if "out" not in p.parts)


def own_names():
    """The names of specs/ and proofs/ that change."""
    found = set()
    for path in proof_files():
        for name in NAME.findall(path.read_text()):
            if turned(name) != name:
                found.add(name)
    return found


def outside_strings(text, change):
    """text with change made everywhere but in string literals."""
    pieces = re.split(r'("(?:[^"\\\n]|\\.)*")', text)
    return "".join(p if i % 2 else change(p) for i, p in enumerate(pieces))


def main(words):
    names = own_names()

    def change(text):
        return NAME.sub(lambda m: turned(m.group()) if m.group() in names else m.group(), text)

    if "--dry" in words:
        by_new = {}
        for path in proof_files() + sorted(Path("crates").rglob("*.rt")):
            for name in set(NAME.findall(path.read_text())):
                if name in names:
                    by_new.setdefault(turned(name), set()).add(name)
        for path in proof_files() + sorted(Path("crates").rglob("*.rt")):
            text = path.read_text()
            here = set(NAME.findall(re.sub(r"\.[a-z][\w'-]*", "", text)))
            for name in here & names:
                if turned(name) in here:
                    print(f"together: {path}: {name}")
        for new, olds in sorted(by_new.items()):
            if len(olds) > 1:
                print(f"together: {new}: {sorted(olds)}")
        print("\n".join(sorted(names)))
        return
    for path in proof_files():
        text = path.read_text()
        if str(path) in LEMMA_FILES:
            for lemma, other in LEMMAS.items():
                text = re.sub(rf"(?<![\w'-]){lemma}(?![\w'-])", other, text)
        path.write_text(change(text))
    for path in sorted(Path("crates").rglob("*.rt")):
        if "out" in path.parts:
            continue
        text = path.read_text()
        path.write_text(outside_strings(text, change))
    for path in sorted(Path("crates").glob("*/must-fail/*.edit")):
        # port.py turns no edit: what it turned in the sources is turned here too
        path.write_text(NAME.sub(lambda m: turned(m.group()), path.read_text()))
    for path in [Path("README.md"), Path("host/README.md"), *sorted(Path("docs").glob("*.md")), *sorted(Path("docs/requests").glob("*.md"))]:
        # in prose a definition's name stands in backquotes
        path.write_text(re.sub(r"`[^`\n]*`", lambda m: change(m.group()), path.read_text()))


main(sys.argv[1:])
