#!/usr/bin/env python3
"""After tools/answers.py: a branch on `!f(..)` now says what f returned, so no lemma turns the negation."""
import re
from pathlib import Path

for path in sorted(Path("crates").glob("*/proofs/**/Answers.antt")):
    text = path.read_text()
    token = r"((?:c|[a-z][\w-]*)(?:\.[\w-]+)*)"
    new = re.sub(rf"(?<![\w.-])(?:fails|holds) {token} ((?:c\.if|if)[\w.-]*)", r"sym \1 ∙ \2", text)
    if new == text:
        continue
    head = [l for l in new.split("\n") if l.startswith("use ")]
    need = [n for n in ("sym", "◌∙◌") if not any(re.search(rf"[{{ ,]{re.escape(n)}[}},]", l) for l in head)]
    if need:
        lines = new.split("\n")
        i = next(k for k, l in enumerate(lines) if l.startswith("use "))
        lines.insert(i, "use Rattle.std.proofs.Common.{" + ", ".join(need) + "}")
        new = "\n".join(lines)
    path.write_text(new)
