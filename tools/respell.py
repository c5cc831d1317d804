#!/usr/bin/env python3
"""tools/respell.py: brings the crates' own names to today's spelling, once, after the kit's port.py.

- Each line of tools/respell.names is an old name and its new one: definitions, fields and lemmas in snake case. A third word is the file or the
  folder that it is for: lemmas whose names would fall together with such a definition there. No Rust name is among them.
- A label of a lone clause goes: a function with one `ensures` writes `ensures { .. }`.
- #![tactic(auto)] stands near the head of each lib.rt and main.rt.
- A `use` list that would begin with `{-`, which opens a comment, has another name first.
"""
import re
from pathlib import Path

ROOT = Path(__file__).resolve().parent.parent
LINES = [line.split() for line in (ROOT / "tools/respell.names").read_text(encoding="utf-8").split("\n") if line]
EVERYWHERE = {line[0]: line[1] for line in LINES if len(line) == 2}
NAMES = dict(EVERYWHERE)  # those of the file that is being respelled
WORD = re.compile(r"(?<![\w'-])[^\W\d][\w'-]*")


def renamed(text):
    return WORD.sub(lambda m: NAMES.get(m[0], m[0]), text)


def plain_names(text):
    """Names without a dash alone: Rust's own text has a minus there."""
    return WORD.sub(lambda m: NAMES.get(m[0], m[0]) if "-" not in m[0] else m[0], text)


CLAUSE = re.compile(r"^ +(requires|ensures)(\*?) (\w+) \{", re.M)


def rust(text):
    lines, inside = [], False
    for line in text.split("\n"):
        begins = bool(re.match(r"\s*(ghost |requires|ensures)", line))
        inside = begins or (inside and not re.match(r"\s*\{\s*$|^\s*(pub |fn |#|//)", line))
        lines.append(renamed(line) if inside else plain_names(line))
    return lone("\n".join(lines))


def lone(text):
    """The clauses of each function, from its `fn` to its body: a label that stands alone in its kind goes."""
    lines = text.split("\n")
    groups, at = [], []
    for i, line in enumerate(lines):
        if CLAUSE.match(line):
            at.append(i)
        elif re.match(r"\s*\{\s*$", line) or re.search(r"\bfn \w", line):
            groups.append(at)
            at = []
    for group in [*groups, at]:
        for kind in ("requires", "ensures"):
            own = [i for i in group if lines[i].lstrip().startswith(kind)]
            if len(own) == 1:
                lines[own[0]] = CLAUSE.sub(lambda m: m[0].replace(f" {m[3]} {{", " {"), lines[own[0]])
    return "\n".join(lines)


def tactic(text):
    """Below the comment at the head, above the first item."""
    if "#![tactic(auto)]" in text:
        return text
    lines = text.split("\n")
    at = next((i for i, line in enumerate(lines) if not line.startswith("//")), 0)
    return "\n".join([*lines[:at], "#![tactic(auto)]", "", *lines[at:]])


for path in sorted((ROOT / "crates").rglob("*")):
    if "out" in path.parts or not path.is_file() or path.suffix not in (".rt", ".antt", ".edit"):
        continue
    text = path.read_text(encoding="utf-8")
    own = {line[0]: line[1] for line in LINES if len(line) == 3 and path.relative_to(ROOT).as_posix().startswith(line[2])}
    NAMES = {**EVERYWHERE, **own}
    if path.suffix == ".rt":
        new = rust(text)
        new = tactic(new) if path.name in ("lib.rt", "main.rt") else new
    else:
        new = renamed(text)
        new = new.replace(".{-ℤ-+ℤ_cancel}", ".{ℤ, -ℤ-+ℤ_cancel}") if path.suffix == ".antt" else new
    if new != text:
        path.write_text(new, encoding="utf-8")
