#!/usr/bin/env python3
"""Brings the repository's own names to today's spelling: words in snake case, types and modules as they are. Run once, right after port.py.

usage: tools/respell.py [--list]     at the top of the repository; --list only prints the names and those that fall together

A name is one that a file of specs/, or a file of lemmas of proofs/, declares: a definition, a lemma, a field, a constructor. Upper letters inside a
name that begins small become small with `_` before; a dash joins two names and stays. Names of src/ keep their spelling, as do strings; in a .rt file nothing
but whole names of these changes. The edits of must-fail/ and what stands between backticks in README.md and docs/ follow, and there the names that
port.py itself turned follow too."""

import collections
import re
import sys
from pathlib import Path

ROOT = Path(__file__).resolve().parent.parent
DECLARED = re.compile(r"^((?:(?:pub|unfoldable|abbrev|opaque) +)*)(record |data |ruleset )?(?:pub +)?([^\s:(){},;.=]+)(?= *[:=])")
FIELD = re.compile(r"^ +(?:(?:pub|unfoldable|abbrev|opaque) +)*([^\s(){},;.=]+) : ")
NAME = re.compile(r"[^\s(){}\[\],;.:`\"|]+")
WORD = re.compile(r"[^\W\d][\w'*+<≤≡∷ℤ-]*")
# Names that would fall together with another of theirs, or with a word or a function that is in scope where they are used.
OTHER = {
    "whole_by": "whole-by",
    "sign_text": "sign-text",
    "digits_of": "digits-of",
    "take_while": "take-while",
    "take_back": "take-back",
    "rest_part": "rest-part",
    "run_more": "run-more",
    "sum_below": "sum-below",
}


def snake(name):
    return re.sub(r"(?<=[a-z0-9])([A-Z])(?!$)|(?<=[a-z0-9])([A-Z])", lambda m: "_" + (m[1] or m[2]).lower(), name) if name[0].islower() else name


def lemma_files():
    for crate in sorted((ROOT / "crates").iterdir()):
        yield from sorted((crate / "specs").rglob("*.antt"))
        yield from sorted((crate / "proofs").glob("*.antt"))


def declared():
    names = collections.defaultdict(set)
    for path in lemma_files():
        for line in path.read_text().split("\n"):
            if line.startswith(("--", "use ", "pub use ", "pub mod ", "mod ")):
                continue
            for pattern, group in ((DECLARED, 3), (FIELD, 1)):
                found = pattern.match(line)
                if found and not (pattern is DECLARED and line.startswith(" ")):
                    names[found[group]].add(str(path.relative_to(ROOT)))
    return names


def renamed():
    taken = {}
    for name in declared():
        new = OTHER.get(name) or snake(name)
        if new != name and not (name[0].isupper() and "-" not in name):
            taken[name] = new
    return taken


def landed():
    """What port.py turned: names of LANDED in the old spelling, from tools/port-names.txt."""
    path = ROOT / "tools/port-names.txt"
    return {old: snake(old) for old in path.read_text().split()} if path.exists() else {}


def turn(text, names, pattern):
    return pattern.sub(lambda m: names.get(m[0], m[0]), text)


def turn_rt(text, names):
    parts = re.split(r'(b?"(?:[^"\\]|\\.)*")', text)
    return "".join(part if k % 2 else turn(part, names, WORD) for k, part in enumerate(parts))


def main():
    names = renamed()
    if "--list" in sys.argv:
        source = " ".join(p.read_text() for p in (ROOT / "crates").rglob("*.rt"))
        source = re.sub(r"ghost use [^;]*;|//[^\n]*", " ", source)
        words = set(re.findall(r"\w+", source))
        old = set(declared())
        back = collections.defaultdict(list)
        for name, new in names.items():
            back[new].append(name)
            if new in old:
                print("falls on a name:", name, new)
            if new in words:
                print("is a word of src/:", name, new)
        for new, olds in back.items():
            if len(olds) > 1:
                print("fall together:", olds, new)
        print(len(names), "names")
        return
    for path in (ROOT / "crates").rglob("*.antt"):
        old = path.read_text()
        new = turn(old, names, NAME)
        if new != old:
            path.write_text(new)
    for path in (ROOT / "crates").rglob("*.rt"):
        old = path.read_text()
        new = turn_rt(old, names)
        if new != old:
            path.write_text(new)
    every = landed() | names
    for path in (ROOT / "crates").rglob("*.edit"):
        old = path.read_text()
        new = turn(old, every, NAME)
        if new != old:
            path.write_text(new)
    for path in [ROOT / "README.md", *(ROOT / "docs").rglob("*.md")]:
        old = path.read_text()
        new = re.sub(r"`[^`\n]+`", lambda m: turn(m[0], every, NAME), old)
        if new != old:
            path.write_text(new)


main()
