#!/usr/bin/env python3
"""Turns the proofs of an older Rattle, Proof.antt, into today's Invariants.antt and Answers.antt.

usage: rt names OUT; python3 tools/answers.py OUT CRATE..    at the top of the repository

OUT lists the old and the new names of goals and steps. What a proof left to `search rules` is left out, since the check tries more than that.
A path that the list doesn't explain is written as it was and printed.
"""
import json
import re
import sys
from pathlib import Path

IDENT = r"[A-Za-z_κ][\w'₀-]*"


def plain(name):
    """A name as the older and today's spelling have it alike."""
    return name.replace("-", "_").removesuffix("_lem").lower()


def blocks(text):
    """The declarations of a file, each with the comment above it."""
    return [b for b in re.split(r"\n\s*\n", text.strip("\n")) if b.strip()]


def split_args(text):
    """The arguments of an application, by brackets."""
    out, depth, word = [], 0, ""
    for ch in text:
        if ch in "([{":
            depth += 1
        if ch in ")]}":
            depth -= 1
        if ch.isspace() and depth == 0:
            if word:
                out.append(word)
            word = ""
        else:
            word += ch
    if word:
        out.append(word)
    return out


class Names:
    """What one function's steps and goals were called and are called."""

    def __init__(self, lts):
        self.needs = lts["needs"]
        self.at = [a for a, _ in lts["asked_at"]]
        self.places = {}
        self.arms = {}
        for p, arm in zip(lts["places"], lts["arms"]):
            self.places[p[0]] = p
            self.arms[p[0]] = arm
        self.loops = lts["loops"]
        self.changed = lts["changed"]

    def step(self, place, name, rest):
        """The new path of the step NAME at PLACE or above it, and what is left of the path."""
        at = place
        while at:
            p = self.places[at]
            if p[2][0] and plain(p[2][0]) == plain(name):
                # an arm's fields, told at this place or at one below it
                for q in [at] + [k for k in self.places if self.under(k, at)]:
                    arm = self.arms.get(q)
                    if not arm:
                        continue
                    for field, step, path in arm[2]:
                        if plain(step) == plain(name) and path and rest[: len(path)] == path:
                            return [arm[0], field] + rest[len(path):]
                return [p[2][1]] + rest
            at = p[1]
        return None

    def callee(self, goal):
        """The function whose call a goal is the requires of."""
        for p in self.places.values():
            if "-requires" in goal and p[2][1] == goal.replace("-requires", "", 1):
                return p[3]
        return None

    def under(self, low, high):
        while low:
            if low == high:
                return True
            low = self.places[low][1]
        return False


def clauses():
    """The names of the requires of each function that has several, by crate::module::function (an impl's type left out)."""
    found = {}
    for path in sorted(Path("crates").glob("*/src/*.rt")):
        crate, module = path.parts[1], path.stem
        inside = None
        for line in path.read_text().split("\n"):
            m = re.match(r"\s*(?:pub(?:\([a-z]+\))? )?fn (\w+)", line)
            if m:
                inside = "::".join([crate] + ([module] if module not in ("lib", "main") else []) + [m.group(1)])
            m = re.match(r"\s*requires (\w+) \{", line)
            if m and inside:
                found.setdefault(inside, []).append(m.group(1))
    return found


CLAUSES = clauses()
START = ("args", "requires", "ranges", "well_formed", "type_inv")


def clause_path(function, path):
    """Of `c.requires` what is now said by a clause's name: the older form nested the clauses to the right."""
    names = CLAUSES.get(function, [])
    if len(names) < 2 or not path or path[0] in names:
        return path
    i, rest = 0, list(path)
    while i < len(names) - 1 and rest and rest[0] == "1":
        i += 1
        rest.pop(0)
    if i < len(names) - 1:
        if not rest or rest[0] != "0":
            print(f"{function}: requires.{'.'.join(path)}")
            return path
        rest.pop(0)
    return [names[i]] + rest


def by_clauses(text, callee):
    """A tuple for what a call requires, by the names of its clauses."""
    names = CLAUSES.get(callee, [])
    flat = text.strip()
    if len(names) < 2 or not (flat.startswith("(") and flat.endswith(")")):
        return text
    depth, parts, word = 0, [], ""
    for ch in flat[1:-1]:
        depth += (ch in "([{") - (ch in ")]}")
        if depth < 0:
            return text
        if ch == "," and depth == 0:
            parts.append(word.strip())
            word = ""
        else:
            word += ch
    parts.append(word.strip())
    while len(parts) < len(names) and parts[-1].startswith("(") and parts[-1].endswith(")"):
        inner = by_comma(parts[-1][1:-1])
        if len(inner) < 2:
            break
        parts[-1:] = inner
    if len(parts) != len(names):
        return text
    return " record { " + "; ".join(f"{n} = {v}" for n, v in zip(names, parts)) + " }"


def by_comma(text):
    depth, parts, word = 0, [], ""
    for ch in text:
        depth += (ch in "([{") - (ch in ")]}")
        if ch == "," and depth == 0:
            parts.append(word.strip())
            word = ""
        else:
            word += ch
    return parts + [word.strip()]


def turn_paths(body, names, place, where, function):
    # a `let` of the record at an earlier place stands on a line of its own
    body = re.sub(r"(?<=\S)( let " + IDENT + r" = " + IDENT + r"(?:\.before)* in) (?=\S)", r"\n\1\n", body)
    body = re.sub(r"^( *let " + IDENT + r" = " + IDENT + r"(?:\.before)* in) (?=\S)", r"\1\n", body)
    body = re.sub(r"last_arm (\d+) (\S+) \(search rules\) [\w.-]+\.rest", r"(let last : \2 ≡ \1 = omega arith in last)", body)
    alias = {"c": place}
    out = []
    lines = body
    # let x = c.before.. in : a name for the record at an earlier place
    pattern = re.compile(r"(?<![\w'.-])(" + IDENT + r")((?:\.[\w'-]+)*)")

    def resolve(base, comps):
        at = alias[base]
        comps = list(comps)
        while comps and comps[0] == "before":
            # where today's code has fewer steps, what is left is found by its name
            at = names.places[at][1] or at
            comps.pop(0)
        if not comps:
            return "c", at
        if plain(comps[0]) in START:
            rest = clause_path(function, comps[1:]) if comps[0] == "requires" else comps[1:]
            return ".".join(["c", plain(comps[0])] + rest), None
        got = names.step(at, comps[0], comps[1:]) or names.step(place, comps[0], comps[1:])
        for other in names.places:
            got = got or names.step(other, comps[0], comps[1:])
        if got is None:
            print(f"{where}: no step {comps[0]} at {at}")
            return "c." + ".".join(comps), None
        return "c." + ".".join(got), None

    def one(m):
        base, path = m.group(1), m.group(2)
        if base not in alias:
            return m.group()
        text, _ = resolve(base, path[1:].split(".") if path else [])
        return text

    result = []
    for line in lines.split("\n"):
        m = re.match(r"^(\s*)let (" + IDENT + r") = (" + IDENT + r")((?:\.before)*) in$", line.rstrip())
        if m and m.group(3) in alias:
            _, at = resolve(m.group(3), [w for w in m.group(4).split(".") if w])
            alias[m.group(2)] = at
            continue
        result.append(pattern.sub(one, line))
    return "\n".join(result)


def imports_of(text):
    return [l for l in text.split("\n") if l.startswith("use ")]


def convert(path, lts, crate, function):
    text = path.read_text()
    names = Names(lts)
    where = str(path.parent.relative_to("crates"))
    rust = crate + "::" + function.replace(".", "::")
    uses = [u for u in imports_of(text) if ".Statement.{" not in u and not u.endswith(" as tie")]
    head = "\n".join(l for l in text.split("\n")[:3] if l.startswith("-- "))
    body = "\n".join(l for l in text.split("\n") if not l.startswith("use "))
    decls, order, spec = {}, [], None
    for b in blocks(body):
        lines = b.split("\n")
        comment = [l for l in lines if l.startswith("--")]
        code = [l for l in lines if not l.startswith("--")]
        if not code:
            continue
        m = re.match(r"^(?:pub )?(?:abbrev )?(?:pub )?(" + IDENT + r") :", code[0])
        if not m:
            print(f"{where}: unread block: {code[0]}")
            continue
        name = m.group(1)
        if "tie.close" in b:
            spec = b
            continue
        decls[name] = (comment if b.split("\n")[0] != head.split("\n")[0] else [c for c in comment if c not in head], code)
        order.append(name)
    args = split_args(inner_spec(spec))
    loops = [n for n in order if n.startswith(("invariant-", "decreases-"))]
    args = [a for a in args if a not in loops]
    answers, used = [], set()
    by_name = {plain(o): (o, n, at) for (o, n), at in zip(names.needs, names.at)}
    if len(args) == len(names.needs):
        pairs = [(a, n, at) for a, (o, n), at in zip(args, names.needs, names.at)]
    else:
        print(f"{where}: {len(args)} answers for {len(names.needs)} goals; by name")
        pairs = []
        for n in order:
            m = re.search(r"tie\.Need-(\S+)", " ".join(decls[n][1]))
            if not m:
                continue
            key = plain(m.group(1))
            got = by_name.get(key) or by_name.get(key.removeprefix("overflow_"))
            if got:
                pairs.append((n, got[1], got[2]))
            else:
                print(f"{where}: no goal {m.group(1)}")
    text_of_goals = []
    goal_decls = {n for n in order if "tie.Need-" in " ".join(decls[n][1])}
    for a, new, at in pairs:
        flat = re.sub(r"\s+", " ", a)
        if re.fullmatch(r"\(λ c( κs)?\. search rules\)", flat):
            continue
        m = re.fullmatch(r"\(λ c(?: κs)?\. (.*)\)", flat)
        if m:
            text_of_goals.append(f"pub {new} : goal.{new}\n{new} c = {by_clauses(turn_paths(m.group(1), names, at, where, rust), names.callee(new))}")
            continue
        if a not in decls:
            print(f"{where}: the answer {a} of {new} is not a declaration here")
            continue
        comment, code = decls[a]
        out = comment + [f"pub {new} : goal.{new}"]
        sig = 1
        while sig < len(code) and not re.match(rf"^{re.escape(a)}( |$)", code[sig]):
            if code[sig].startswith("unfolding"):
                out.append(code[sig])
            sig += 1
        eq = "\n".join(code[sig:])
        eq = re.sub(rf"^{re.escape(a)}", new, eq)
        eq = re.sub(rf"^{re.escape(new)} c κs ", f"{new} c ", eq)
        headline, rest = eq.split("=", 1)
        out.append(headline + "=" + by_clauses(turn_paths(rest, names, at, where, rust), names.callee(new)))
        text_of_goals.append("\n".join(out))
    lemmas = ["\n".join(decls[n][0] + decls[n][1]) for n in order if n not in goal_decls and n not in loops]
    module = f"Rattle.{crate}.proofs.{function}"
    folder = path.parent
    if text_of_goals:
        whole = [head] if head else []
        whole += ["\n".join(uses + [f"use {module}.Goals as goal"])]
        whole = ["\n".join(whole)] + lemmas + text_of_goals
        (folder / "Answers.antt").write_text("\n\n".join(whole) + "\n")
    if loops:
        made = []
        for n in loops:
            comment, code = decls[n]
            joined = "\n".join(code)
            m = re.search(rf"^{re.escape(n)}((?: {IDENT}| _)*) =", joined, re.M)
            if not m:
                print(f"{where}: unread {n}")
                continue
            params = m.group(1).split()
            kind, which = n.split("-", 1)
            found = [i for i, l in enumerate(names.loops) if plain(l[0][0]) == plain(which)]
            if not found:
                print(f"{where}: no loop {which}")
                continue
            i = found[0]
            new = f"{kind}-{names.loops[i][0][1]}"
            variables, changed = names.loops[i][1], names.changed[i]
            fields = [f"l.initial.{v}" if ch else f"l.{v}" for v, ch in zip(variables, changed)] + [f"l.{v}" for v, ch in zip(variables, changed) if ch]
            if len(fields) != len(params):
                print(f"{where}: {n} takes {len(params)} and the loop has {len(fields)}")
            table = dict(zip(params, fields))
            rest = joined[m.end():]
            rest = re.sub(r"(?<![\w'.-])(" + IDENT + r")", lambda k: table.get(k.group(1), k.group()), rest)
            made.append("\n".join(comment + [f"abbrev pub {new} : goal.{new}", f"{new} l =" + rest]))
        (folder / "Invariants.antt").write_text("\n\n".join([("\n".join(([head] if head else []) + uses + [f"use {module}.Given as goal"]))] + made) + "\n")
    path.unlink()


def inner_spec(spec):
    """What stands between tie.spec and the bracket that closes it, or all that follows."""
    start = spec.index("tie.spec")
    before = spec[:start].rstrip()
    rest = spec[start + len("tie.spec"):]
    if before.endswith("("):
        depth, i = 1, 0
        while depth:
            depth += {"(": 1, ")": -1}.get(rest[i], 0)
            i += 1
        rest = rest[: i - 1]
    return rest


def main(words):
    out = Path(words[0])
    for crate in words[1:]:
        lists = json.loads((out / "crates" / crate / "names.json").read_text())
        for path in sorted(Path("crates", crate, "proofs").rglob("Proof.antt")):
            if "tie." not in path.read_text():
                print(f"{path}: by hand")
                continue
            function = ".".join(path.parent.relative_to(Path("crates", crate, "proofs")).parts)
            key = f"Rattle-{crate}-proofs.{function}.Lts"
            if key not in lists:
                print(f"{path}: no list of names {key}")
                continue
            convert(path, lists[key], crate, function)


if __name__ == "__main__":
    main(sys.argv[1:])
