#!/usr/bin/env python3
"""After tools/answers.py: facts of `requires` by the names of the clauses, where an answer gave the record a name or wrote a tuple.

usage: python3 tools/answers_clauses.py OUT CRATE..    OUT as for tools/answers.py
"""
import json
import re
import sys
from pathlib import Path

sys.argv, words = [sys.argv[0]], sys.argv[1:]
sys.path.insert(0, str(Path(__file__).parent))
from answers import CLAUSES, Names, by_clauses, clause_path  # noqa: E402


def turn(path, lts, rust):
    text = path.read_text()
    names = Names(lts)
    out = []
    for block in text.split("\n\n"):
        m = re.search(r"let ([\w-]+) = c\.requires in", block)
        if m and len(CLAUSES.get(rust, [])) > 1:
            pre = m.group(1)
            block = re.sub(rf"(?<![\w.-]){pre}((?:\.[\w-]+)+)", lambda k: ".".join([pre] + clause_path(rust, k.group(1)[1:].split("."))), block)
        # a step that an arm now tells, where an answer gave the step a name
        for name, step in re.findall(r"let ([\w-]+) = c\.([\w-]+) in", block):
            for place in names.places.values():
                arm = names.arms[place[0]]
                if place[2][1] == step and arm:
                    for field, old, way in arm[2]:
                        if old == place[2][0] and way:
                            block = re.sub(rf"(?<![\w.-]){name}\." + re.escape(".".join(way)) + r"(?![\w.-])", f"c.{arm[0]}.{field}", block)
            if re.match(r"in-", step):
                block = re.sub(rf"(?<![\w.-]){name}\.keys\d", f"{name}.is", block)
        for line, name in re.findall(r"(^ *let ([\w-]+) = c\.[\w.-]+ in\n)", block, re.M):
            if not re.search(rf"(?<![\w.-]){name}(?![\w-])", block.replace(line, "", 1)):
                block = block.replace(line, "", 1)
        m = re.search(r"^pub ([\w-]+) : goal\.", block, re.M)
        callee = names.callee(m.group(1)) if m else None
        if callee and len(CLAUSES.get(callee, [])) > 1:
            block = re.sub(r"(let [\w-]+ = c\.requires in) (?=\()", r"\1\n    ", block)
            head, _, last = block.rpartition(" in\n")
            if not last:
                head, _, last = block.rpartition(" in (\n")
                last = "(" + last if last else ""
            if last:
                new = by_clauses(re.sub(r",\s*\)$", ")", re.sub(r"\s+", " ", last.strip())), callee)
                if new.startswith(" record"):
                    block = head + " in\n   " + new
            else:
                head, _, last = block.partition(" =\n")
                new = by_clauses(re.sub(r",\s*\)$", ")", re.sub(r"\s+", " ", last.strip())), callee)
                if new.startswith(" record"):
                    block = head + " =\n   " + new
        out.append(block)
    new = "\n\n".join(out).rstrip("\n") + "\n"
    if new != text:
        print(path)
        path.write_text(new)


lists_of = Path(words[0])
for crate in words[1:]:
    lists = json.loads((lists_of / "crates" / crate / "names.json").read_text())
    for path in sorted(Path("crates", crate, "proofs").rglob("Answers.antt")):
        function = ".".join(path.parent.relative_to(Path("crates", crate, "proofs")).parts)
        key = f"Rattle-{crate}-proofs.{function}.Lts"
        if key in lists:
            turn(path, lists[key], crate + "::" + function.replace(".", "::"))
