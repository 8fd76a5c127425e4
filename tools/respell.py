#!/usr/bin/env python3
"""Brings the repository's own definitions and lemmas to today's spelling, once, after port.py.

usage: python3 tools/respell.py        at the top of the repository

Names of values (functions, lemmas, fields, constructors) go to snake case, names of facts and types to upper camel
case. Only names that a file of specs/ or proofs/ declares are touched, never the goals that the check names, Rust
names in src/, strings, or prose: in comments and pages a name is turned where it stands between backquotes.
It says which names fall together with others; with --look it says so and writes nothing.
"""

import collections
import glob
import os
import re
import sys

DECLARE = re.compile(r"(?:pub |abbrev |unfoldable )*((?:[^\s(){}:⌜]+ )+): ?(.*)")
MEMBER = re.compile(r"\s+(?:pub )?((?:[^\s(){}:]+ )+): ")
BORROWED = re.compile(r"^use (?!Rattle[.·](?:%s)\.)\S*\{([^}]*)\}", re.M)
DASHED = re.compile(r"[\w']-\w")
HEAD = re.compile(r"(?:pub |abbrev |unfoldable )*(data|record|ruleset) (\S+)")
GOAL = re.compile(r"(goal|need|given)\.")
TOKEN = re.compile(r"""[^\s(){}\[\],;.:λ⌜⌝|`"]+""")
QUOTED = re.compile(r"`[^`\n]+`")

# Names that would fall together with others.
OWN = {"crc-of": "crc_of_is", "Log-part": "PartOfLog", "List-part": "PartOfList"}


def files(*patterns):
    for pattern in patterns:
        yield from sorted(p for p in glob.glob(pattern, recursive=True) if "/out/" not in p)


def crates():
    return "|".join(os.path.basename(p) for p in glob.glob("crates/*"))


def borrowed(text):
    """The names that a file takes from the library."""
    pattern = re.compile(BORROWED.pattern % crates(), re.M)
    return {n for m in pattern.finditer(text) for n in re.split(r"[,\s]+", m.group(1))}


def declared():
    """Each name that a file declares, in whatever way, with the files."""
    names = collections.defaultdict(set)
    for path in files("crates/*/specs/**/*.antt", "crates/*/proofs/**/*.antt"):
        inside = False
        with open(path, encoding="utf-8") as f:
            text = f.read()
        if os.path.basename(os.path.dirname(path)) in ("specs", "proofs"):
            others = borrowed(text)
            for piece, aside in outside_comments(text, "--"):
                for n in () if aside else TOKEN.findall(piece):
                    if DASHED.search(n) and n not in others:
                        names[n].add(path)
        for line in text.split("\n"):
            head, member, sign = HEAD.match(line), MEMBER.match(line), DECLARE.match(line)
            if line.startswith("--"):
                continue
            if head:
                inside = True
                names[head.group(2)].add(path)
            elif inside and member:
                for n in member.group(1).split():
                    names[n].add(path)
            elif sign:
                inside = False
                if not GOAL.match(sign.group(2)):
                    for n in sign.group(1).split():
                        names[n].add(path)
            elif line.strip() and not line[0].isspace():
                inside = False
    return names


def spelled(name):
    if name in OWN:
        return OWN[name]
    if not re.fullmatch(r"[A-Za-z0-9'-]+(?:_[A-Za-z0-9'-]+)*", name):
        return name
    if name[0].isupper():
        return "".join(w[:1].upper() + w[1:] for w in re.split("[-_]", name)) if "-" in name else name
    return re.sub(r"(?<=[a-z])([A-Z])(?=[a-z])", lambda m: "_" + m.group(1).lower(), name.replace("-", "_"))


def outside_comments(text, start):
    """The text in pieces: (piece, whether it is a comment or a string)."""
    pattern = r'--[^\n]*' if start == "--" else r'//[^\n]*|"(?:\\.|[^"\\])*"'
    at = 0
    for m in re.finditer(pattern, text):
        if start == "--" and m.start() > 0 and not text[m.start() - 1].isspace():
            continue
        yield text[at : m.start()], False
        yield m.group(0), True
        at = m.end()
    yield text[at:], False


def turn(text, new):
    return TOKEN.sub(lambda m: new.get(m.group(0), m.group(0)), text)


def turned(path, text, new):
    quoted = lambda t: QUOTED.sub(lambda m: turn(m.group(0), new), t)
    if path.endswith(".md"):
        return quoted(text)
    if path.endswith(".edit"):
        return turn(text, new)
    start = "--" if path.endswith(".antt") else "//"
    return "".join(quoted(t) if aside else turn(t, new) for t, aside in outside_comments(text, start))


def main():
    names = declared()
    new = {n: spelled(n) for n in names if spelled(n) != n}
    tokens = collections.defaultdict(set)
    for path in files("crates/*/specs/**/*.antt", "crates/*/proofs/**/*.antt", "crates/*/src/**/*.rt"):
        with open(path, encoding="utf-8") as f:
            for t, aside in outside_comments(f.read(), "--" if path.endswith(".antt") else "//"):
                if not aside:
                    for m in TOKEN.findall(t):
                        tokens[m].add(path)
    back = collections.defaultdict(list)
    for old, to in new.items():
        back[to].append(old)
    for to, olds in sorted(back.items()):
        if len(olds) > 1:
            print("fall together:", olds, "as", to)
        if to in names:
            print("stands already as a declared name:", olds, to, sorted(names[to]))
        elif to in tokens:
            both = sorted(p for p in tokens[to] if any(p in tokens[o] for o in olds))
            if both:
                print("stands already in a file that has both:", olds, to, both)
    if "--look" in sys.argv:
        return
    for path in files("crates/*/specs/**/*.antt", "crates/*/proofs/**/*.antt", "crates/*/src/**/*.rt", "crates/*/must-fail/*.edit", "README.md", "docs/*.md"):
        with open(path, encoding="utf-8") as f:
            text = f.read()
        others = borrowed(text)
        to = turned(path, text, {old: n for old, n in new.items() if old not in others})
        if to != text:
            with open(path, "w", encoding="utf-8") as f:
                f.write(to)


if __name__ == "__main__":
    main()
