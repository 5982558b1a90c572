#!/usr/bin/env python3
"""Lists the places in crates/*/src that read like an older Rattle, by kind. `places.py [ROOT]` prints a count and the lines for
each kind; a line that is listed is one to look at, and docs/DESIGN-PASS.md says which of them are places."""
import difflib
import itertools
import pathlib
import re
import sys

ROOT = pathlib.Path(sys.argv[1] if len(sys.argv) > 1 else ".")
FILES = sorted(ROOT.glob("crates/*/src/**/*.rt"))

# kind: what a line of it looks like
LINES = {
    "1 own enum": r"^\s*(pub(\(crate\))? )?enum ",
    "1 number in place of a name": r"^\s*(pub )?const [A-Z_0-9]+: u(8|16|32|size)\b",
    "1 match that only turns an option or a result": r"(None|Err\(_\)) => |Some\((\w+)\) => (Some|Ok)\(|Ok\((\w+)\) => (Ok|Some)\(",
    "1 answer as a pair of numbers": r"-> .*\(u\d+, u\d+\)",
    "3 counted loop": r"^\s*for .* in .*\.\.",
    "3 other loop": r"^\s*('\w+: )?(while|loop)\b",
    "3 loop over an iterator": r"^\s*for .*\.(iter|enumerate)\(",
    "4 trait by hand": r"^\s*impl.*\b(PartialEq|Eq|PartialOrd|Ord|Clone|Copy|Hash|Default|From<.*>|TryFrom<.*>|Display|Debug) for ",
    "4 conversion or printing by a function": r"^\s*(pub )?fn (print_\w+|\w+_name|\w+_number|code|to_\w+|from_\w+|as_\w+)\b",
    "6 array": r"\[[^\[\]]+; [^\[\]]+\]",
    "6 length or place beside": r"^\s*(pub )?\w*(count|total|len|taken|used)\w*: u(size|\d+),",
    "7 switch": r"\b\w+: bool\b|\bdyn\b|\bfn\(|\bif \w+ \{$",
}


def functions(text):
    """Each function's name, parameters, clauses and body."""
    for found in re.finditer(r"\bfn (\w+)(?:<[^(]*>)?\(", text):
        depth, at = 1, found.end()
        while depth and at < len(text):
            depth += {"(": 1, ")": -1}.get(text[at], 0)
            at += 1
        params = text[found.end():at - 1]
        head = re.match(r"(?s).*?([;{])\n", text[at:])
        clauses = head.group(0) if head else ""
        start = at + len(clauses)
        end = re.search(r"(?m)^ {0,4}\}$", text[start:])
        yield found.group(1), params, clauses, text[start:start + end.start()] if end else ""


def twins(all_functions):
    """Pairs of functions whose bodies differ in little."""
    def shape(body):
        return re.findall(r"\w+|[^\w\s]", re.sub(r"//.*", "", body))
    shapes = [(place, shape(body)) for place, _, _, body in all_functions]
    for (a, x), (b, y) in itertools.combinations([s for s in shapes if len(s[1]) >= 18], 2):
        if difflib.SequenceMatcher(None, x, y, False).ratio() >= 0.8:
            yield f"{a} ~ {b}"


def main():
    texts = {file: file.read_text() for file in FILES}
    for kind, pattern in LINES.items():
        hits = [f"{file.relative_to(ROOT)}:{n}: {line.strip()}" for file, text in texts.items()
                for n, line in enumerate(text.split("\n"), 1) if re.search(pattern, line) and not re.match(r"\s*(//|ghost )", line)]
        print(f"## {kind}: {len(hits)}", *hits, sep="\n")
    found = [(f"{file.relative_to(ROOT)}:{name}", params, clauses, body) for file, text in texts.items()
             for name, params, clauses, body in functions(text)]
    pairs = list(twins(found))
    print(f"## 2 twins: {len(pairs)}", *pairs, sep="\n")
    groups = {}
    for place, params, _, _ in found:
        names = sorted({p.strip() for p in re.split(r",(?![^<(\[]*[>)\]])", re.sub(r"\s+", " ", params)) if ":" in p})
        for pair in itertools.combinations(names, 2):
            groups.setdefault(pair, []).append(place)
    together = {pair: places for pair, places in groups.items() if len(places) >= 3}
    print(f"## 5 parameters together: {len(together)}", *[f"{len(v)} {' + '.join(k)}" for k, v in sorted(together.items(), key=lambda x: -len(x[1]))], sep="\n")
    facts = {}
    for place, _, clauses, _ in found:
        for clause in re.findall(r"(?:requires|ensures)\w* (?:\w+ )?\{(.*?)\}", clauses):
            for fact in {re.sub(r"\b(result|self|[a-z_]+)\.(now|old|new|entry)\b", r"\1", f).strip() for f in re.split(r" × | → |MatchResult result|\(λ \w+\.", clause)}:
                if len(fact) > 12:
                    facts.setdefault(fact.strip("() "), set()).add(place)
    shared = {fact: places for fact, places in facts.items() if len(places) >= 3}
    print(f"## 5 facts in three contracts or more: {len(shared)}", *[f"{len(v)} {k}" for k, v in sorted(shared.items(), key=lambda x: -len(x[1]))], sep="\n")


main()
