#!/usr/bin/env python3
"""Respells this repository's own definitions and lemmas as the library spells its own.

usage: python3 tools/respell.py [FOLDER]      FOLDER, else the current one, has crates/

A word of a definition or a lemma is joined by `_`; a dash stands only between the names of two functions, as in
`length-flat_map`. Names of src/, names that the prover makes, strings and comments' other words stay. Definitions of the
library are cited under their own names. It is run once, after the library's names have been brought up to date, and says
where two names would fall together.
"""

import os
import re
import sys

# names that do not follow by putting `_` for `-`
OWN_WAY = {
    "bit-or": "bit-bit_or",
    "bit-and": "bit-bit_and",
    "getD-joined": "get_or-flat_map",
    "getD-ways": "get_or_ways",
    "length-joined": "length-flat_map",
    "all-joined": "All-flat_map",
}

# definitions of the library that were cited under other names
CITED = {"All": "AllByRecursion", "Has": "ContainsAt"}

DECLARED = re.compile(r"^\s*((?:abbrev |unfoldable |pub )*)([^\s(){}:,;.]+) : (.*)$")
ALIAS = re.compile(r"\bas ([A-Za-z]\w*(?:-\w+)+)")
LETTER = r"[\w'◌≡≤≢<>+*/^%-]"


def files(top):
    for folder, folders, names in os.walk(os.path.join(top, "crates")):
        folders[:] = sorted(f for f in folders if f not in ("out", "target"))
        for name in sorted(names):
            if name.endswith((".antt", ".rt")):
                yield os.path.join(folder, name)


def read(path):
    with open(path, encoding="utf-8") as f:
        return f.read()


def declared(path, text):
    """The names with a dash that a file declares; names that the prover makes are no own names."""
    found = set()
    if path.endswith(".antt"):
        for line in text.splitlines():
            m = DECLARED.match(line)
            if m and "-" in m.group(2) and re.match(r"[A-Za-z]", m.group(2)) and not re.match(r"(goal|need)\.", m.group(3)):
                found.add(m.group(2))
    for line in text.splitlines():
        if line.startswith(("use ", "ghost use ")):
            found.update(ALIAS.findall(line))
    return found


def respelled(path, text, new):
    """The text with each own name respelled; in .rt files only ghost text has such names."""

    def one(m):
        return new.get(m.group(0), m.group(0))

    token = re.compile(rf"(?<![\w'◌-])[A-Za-z]\w*(?:-\w+)+(?!{LETTER})|(?<![\w'◌-])(?:All|Has)(?!{LETTER})")
    cited = {old: own for old, own in CITED.items() if f"{own} as {old}" in text}
    for old, own in cited.items():
        text = text.replace(f"{own} as {old}", own)
    here = {**new, **cited}

    def there(m):
        return here.get(m.group(0), m.group(0))

    out = []
    for line in text.split("\n"):
        plain = line.lstrip().startswith(("//", "--"))
        out.append(token.sub(one if plain else there, line))
    return "\n".join(out)


def main(argv):
    top = argv[0] if argv else "."
    texts = {p: read(p) for p in files(top)}
    names = set().union(*(declared(p, t) for p, t in texts.items()))
    new = {n: OWN_WAY.get(n, n.replace("-", "_")) for n in sorted(names)}
    bad = 0
    for p, t in texts.items():
        used = set(re.findall(rf"{LETTER}+", t))
        for n, m in new.items():
            if n in used and m in used:
                print(f"{p}: {n} and {m} would fall together")
                bad += 1
    if bad:
        return 1
    for p, t in texts.items():
        r = respelled(p, t, new)
        if r != t:
            with open(p, "w", encoding="utf-8") as f:
                f.write(r)
    print(f"{len(new)} names respelled")
    return 0


if __name__ == "__main__":
    raise SystemExit(main(sys.argv[1:]))
