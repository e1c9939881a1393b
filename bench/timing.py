"""What the benchmarks share: the programs that they time, and their best times by turns."""
import subprocess
import sys
import tempfile
import time
from pathlib import Path

HOME = Path(__file__).resolve().parent.parent
# The requests of document 02 that have landed, with which the second emulator answers.
LANDED = "bcefj"


def options(words, doc):
    """The second emulator's source folder, how often each program runs, and the root of an earlier version or None."""
    source = Path(words[0]) if words else HOME / "../shared/second"
    times = int(words[1]) if len(words) > 1 else 9
    earlier = Path(words[2]) if len(words) > 2 else None
    if len(words) > 3 or not (source / "Cargo.toml").is_file():
        sys.exit(f"no second emulator in {source}\n\n{doc}")
    return source, times, earlier


def first_of(*places):
    """The first of these files that is there, or the first: an earlier version may have it at another place."""
    return next((place for place in places if place.is_file()), places[0])


def programs(name, verb, source, earlier, folder):
    """The commands by name: this version's program, the earlier one's, and the second emulator, built in the folder."""
    built = Path("crates") / name / "out" / name
    commands = {"tozhenab": [HOME / built]}
    if earlier:
        older = [earlier / "target/bin" / it for it in (name, name.removeprefix("check_"))]
        commands["earlier"] = [first_of(earlier / built, *older)]
    for command in commands.values():
        if not command[0].is_file():
            sys.exit(f"{command[0]} is missing: rt run </dev/null in crates/{name} proves and builds it")
    build = ["cargo", "build", "--release", "--offline", "--quiet", "--target-dir", folder]
    if subprocess.run(build, cwd=source).returncode != 0:
        sys.exit("the second emulator was not built")
    commands["second"] = [Path(folder) / "release/second", "--requests", LANDED, verb]
    return commands


def answer(command, path):
    """The answer to the input in a file, and the seconds that it takes."""
    with open(path, "rb") as stdin, tempfile.TemporaryFile() as stdout:
        begin = time.perf_counter()
        status = subprocess.run(command, stdin=stdin, stdout=stdout).returncode
        taken = time.perf_counter() - begin
        if status != 0:
            sys.exit(f"{command[0]} failed")
        stdout.seek(0)
        return stdout.read(), taken


def best(commands, path, times):
    """The answer and the best time of each program, by name. This version and the second emulator have to give the same answer; an earlier
    version, in which fewer requests have landed, may give another, and it is said so."""
    texts, others, runs = set(), set(), []
    for _ in range(times):
        answers = {name: answer(command, path) for name, command in commands.items()}
        for name, (text, _) in answers.items():
            (others if name == "earlier" else texts).add(text)
        if len(texts) != 1:
            sys.exit("the answers differ")
        runs.append({name: taken for name, (_, taken) in answers.items()})
    if others - texts:
        print("the earlier version gives another answer", file=sys.stderr)
    return texts.pop(), {name: min(run[name] for run in runs) for name in commands}


def report(what, taken, unit, digits):
    """One line: the times by name, and the ratios of this version to the others."""
    times = ", ".join(f"{name} {value:.{digits}f} {unit}" for name, value in taken.items())
    others = [(name, value) for name, value in taken.items() if name != "tozhenab"]
    ratios = ", ".join(f"{taken['tozhenab'] / value:.2f} of {name}" for name, value in others)
    print(f"{what}: {times}; {ratios}" if others else f"{what}: {times}", flush=True)
