#!/usr/bin/env python3
"""Works out why an input of the console is refused, from the rules of docs/CONSOLE.md and not from the proved program, and compares.

  reasons.py FILE..              prints the reason for each input
  reasons.py --compare PROGRAM   compares with what PROGRAM prints, on every input of crates/check_console/stdin

The comparison fails where a reason differs, where its first line is not the console's stored answer to a refused input, and where a rule or
a kind of fault is met by no input. Its last line says how many inputs were compared.
"""
import re
import subprocess
import sys
from collections import Counter
from pathlib import Path

CHECKED = Path(__file__).resolve().parents[2] / "crates" / "check_console"
FORMS = {
    "words": re.compile(rb"words=([0-7]{1,6})"),
    "at": re.compile(rb"at=([0-7]{1,6})"),
    "word": re.compile(rb"word=([0-7]{20})"),
    "job": re.compile(rb"job=([0-7]{1,6})"),
    "stint": re.compile(rb"stint=([0-7]{1,6}),([0-7]{1,6})"),
}
FOLLOWS = {
    "words": {None},
    "at": {"words", "at", "word"},
    "word": {"at", "word"},
    "job": {"words", "at", "word", "job"},
    "stint": {"words", "at", "word", "job", "stint"},
}
RULES = {"form", "limit", "order", "below", "past", "line-feed", "empty"}
FAULTS = {"6 job none", "6 job", "6 stint", "7 stint", "8 stint", "9 job", "10 job", "11 job", "12 package field", "12 package package", "12 field field"}


class Unreadable(Exception):
    """The number of a line and the rule that it breaks."""


def parse(line):
    """The kind of a line and its values."""
    for kind, form in FORMS.items():
        found = form.fullmatch(line)
        if found:
            return kind, [int(value, 8) for value in found.groups()]
    return None, []


class Input:
    """The memory, the jobs and the stints of an input."""

    def __init__(self, data):
        self.memory, self.jobs, self.stints = [], [], []
        self.begin = self.end = None
        lines = data.split(b"\n")
        rest = lines.pop()
        last = None
        for number, line in enumerate(lines, 1):
            kind, values = parse(line)
            rule = "form" if kind is None else "order" if last not in FOLLOWS[kind] else getattr(self, "read_" + kind)(*values)
            if rule:
                raise Unreadable(number, rule)
            last = kind
        if rest:
            raise Unreadable(len(lines) + 1, "line-feed")
        if not lines:
            raise Unreadable(1, "empty")

    def read_words(self, words):
        self.memory = [0] * words
        return None if 1 <= words <= 0o10000 else "limit"

    def read_at(self, address):
        if self.begin is not None and (address <= self.begin or address < self.end):
            return "below"
        self.begin = self.end = address
        return None if address < len(self.memory) else "past"

    def read_word(self, word):
        if self.end >= len(self.memory):
            return "past"
        self.memory[self.end] = word
        self.end += 1
        return None

    def read_job(self, address):
        self.jobs.append(address)

    def read_stint(self, job, turns):
        self.stints.append((job, turns))

    def high(self, job, n):
        """Digits 3 to 8 of a word of a package."""
        return self.memory[self.jobs[job] + n] >> 36 & 0o777777

    def field(self, job):
        return self.high(job, 1), self.high(job, 2)

    def has_stray(self, job):
        package = self.memory[self.jobs[job] : self.jobs[job] + 16]
        return (
            any(word >> 54 for word in package[:8])
            or any(self.high(job, n) for n in range(4, 8))
            or package[0] & 0o777777
            or self.high(job, 3) & ~0o070000
        )


def overlap(first, second):
    """Two parts of memory, each by its beginning and length, have a word in common."""
    return max(first[0], second[0]) < min(first[0] + first[1], second[0] + second[1])


def shared(given):
    """The first two packages and fields with a word in common."""
    for i, a in enumerate(given.jobs):
        for j, b in enumerate(given.jobs):
            if overlap((a, 16), given.field(j)):
                return [("package", i), ("field", j)]
            if i != j and overlap((a, 16), (b, 16)):
                return [("package", i), ("package", j)]
            if i != j and overlap(given.field(i), given.field(j)):
                return [("field", i), ("field", j)]
    return []


def fault(given):
    """The number of the refusal and who is at fault; 0 where nobody is."""
    jobs, stints = range(len(given.jobs)), range(len(given.stints))
    words = len(given.memory)
    if not jobs:
        return 6, [("job", None)]
    if len(jobs) > 11:
        return 6, [("job", 11)]
    if len(stints) > 256:
        return 6, [("stint", 256)]
    tests = [
        (7, "stint", stints, lambda i: given.stints[i][0] >= len(jobs)),
        (8, "stint", stints, lambda i: given.stints[i][1] > 65535),
        (9, "job", jobs, lambda i: given.jobs[i] + 16 > words),
        (10, "job", jobs, given.has_stray),
        (11, "job", jobs, lambda i: sum(given.field(i)) > words),
    ]
    for number, name, numbers, refuses in tests:
        for i in numbers:
            if refuses(i):
                return number, [(name, i)]
    pair = shared(given)
    return (12, pair) if pair else (0, [])


def reason(data):
    """The text, and what it meets: a rule, or a number with the names that stand after it."""
    try:
        number, named = fault(Input(data))
    except Unreadable as broken:
        line, rule = broken.args
        return f"refused=16\nline={line}\nrule={rule}\n".encode(), rule
    text = "".join(f"{name}={'none' if i is None else f'{i:o}'}\n" for name, i in named)
    met = " ".join([str(number), *(name if i is not None else f"{name} none" for name, i in named)])
    return f"refused={number}\n{text}".encode(), met


def bundle():
    """The inputs of check_console and their stored answers."""
    ends = re.split(rb"^====([=-])\n", (CHECKED / "stdin").read_bytes(), flags=re.MULTILINE)
    inputs = [data if mark == b"=" else data[:-1] for data, mark in zip(ends[::2], ends[1::2])]
    answers = re.split(rb"^=====\n", (CHECKED / "stdout").read_bytes(), flags=re.MULTILINE)[:-1]
    return list(zip(inputs, answers, strict=True))


def compare(program):
    met = Counter()
    for index, (data, answer) in enumerate(bundle()):
        expected, kind = reason(data)
        printed = subprocess.run([program], input=data, stdout=subprocess.PIPE, check=True).stdout
        first = answer if answer.startswith(b"refused=") else b"refused=0\n"
        if printed != expected or not printed.startswith(first):
            sys.exit(f"input {index}: {program} prints {printed}, not {expected}; the console's answer begins with {first}")
        met[kind] += 1
    missing = (RULES | FAULTS | {"0"}) - set(met)
    for kind, count in sorted(met.items()):
        print(f"{count:5} {kind}")
    if missing:
        sys.exit(f"no input meets {', '.join(sorted(missing))}")
    print(f"{met.total()} inputs, as worked out")


if sys.argv[1:2] == ["--compare"] and len(sys.argv) == 3:
    compare(sys.argv[2])
elif len(sys.argv) > 1:
    for name in sys.argv[1:]:
        sys.stdout.buffer.write(reason(Path(name).read_bytes())[0])
else:
    sys.exit(__doc__)
