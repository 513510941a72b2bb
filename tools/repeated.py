#!/usr/bin/env python3
"""Facts, views and parameters that stand in the contracts of three or more functions of a crate.

    python3 tools/repeated.py [FOLDER]

FOLDER is a crate, or the folder crates by default. A fact is a `requires` with the type in place of each parameter's name and without the
variables' moments (.now, .old, .new, .entry); a view is a word of specs/ applied to one variable; parameters are two of one signature.
"""
import re
import sys
from collections import defaultdict
from itertools import combinations
from pathlib import Path

SIGNATURE = re.compile(r"\bfn (\w+)(?:<[^(]*?>)?\s*\(", re.S)
CLAUSE = re.compile(r"\b(requires|ensures)\b\s*\w*\s*\{")
MOMENT = re.compile(r"\.(now|old|new|entry)\b")
# words of the library that say no more than how long a list is
PLAIN = {"length", "vec_len", "vec_capacity"}
LEAST = 3


def closing(text, start, pair):
    """The place of the bracket that closes the one at `start`."""
    depth = 0
    for at in range(start, len(text)):
        if text[at] == pair[0]:
            depth += 1
        elif text[at] == pair[1]:
            depth -= 1
            if depth == 0:
                return at
    raise ValueError("a bracket is not closed")


def functions(text):
    """Each function's name, parameters and clauses, up to its body."""
    text = re.sub(r"//[^\n]*", "", text)
    for found in SIGNATURE.finditer(text):
        end = closing(text, found.end() - 1, "()")
        parameters = " ".join(text[found.end():end].split())
        clauses, at = [], end
        while True:
            clause = CLAUSE.search(text, at)
            stop = re.compile(r"[{;]").search(text, at)
            if clause is None or stop is None or stop.start() < clause.start():
                break
            last = closing(text, clause.end() - 1, "{}")
            clauses.append((clause.group(1), " ".join(text[clause.end():last].split())))
            at = last + 1
        yield found.group(1), parameters, clauses


def split(parameters):
    """The parameters apart, at commas outside brackets."""
    parts, depth, part = [], 0, ""
    for c in parameters:
        depth += (c in "(<[") - (c in ")>]")
        if c == "," and depth == 0:
            parts.append(part.strip())
            part = ""
        else:
            part += c
    return [p for p in parts + [part.strip()] if p and "self" not in p.split(":")[0]]


def typed(clause, parameters):
    """The clause with the type in place of each parameter's name."""
    for name, kind in (p.replace("&mut ", "&").split(": ", 1) for p in parameters):
        clause = re.sub(rf"(?<![\w.]){name}\b", f"<{kind}>", clause)
    return clause


def scan(crate):
    rows = defaultdict(set)
    for path in sorted(crate.rglob("*.rt")):
        for name, parameters, clauses in functions(path.read_text()):
            where = f"{path.stem}:{name}"
            parts = [p.removeprefix("mut ") for p in split(parameters)]
            for kind, clause in clauses:
                if kind == "requires":
                    rows["fact", typed(MOMENT.sub("", clause), parts)].add(where)
                for view, variable in re.findall(r"\b([a-z]\w*) ([a-z]\w*)\.(?:now|old|new|entry)\b(?!\.)", clause):
                    if view not in PLAIN:
                        rows["view", f"{view} of {variable}"].add(where)
            for one, two in combinations(parts, 2):
                rows["parameters", f"{one}, {two}"].add(where)
    return rows


def main():
    top = Path(sys.argv[1] if len(sys.argv) > 1 else "crates")
    crates = [top] if (top / "src").is_dir() else sorted(p for p in top.iterdir() if (p / "src").is_dir())
    for crate in crates:
        for (kind, what), where in sorted(scan(crate / "src").items()):
            if len(where) >= LEAST:
                print(f"{crate.name}: {kind}: {what}: {len(where)}: {' '.join(sorted(where))}")


if __name__ == "__main__":
    main()
