#!/usr/bin/env python3
"""Brings the names of this repository's own definitions and lemmas to today's spelling, after port.py and before any edit by hand.

usage: python3 tools/respell.py [ROOT]

Words and lemmas are in snake case, types and facts in camel case. A lemma that begins with a fact keeps its dash, as does one whose
new name would fall together with another. Names of the library, of goals, of functions of src/, strings and comments stay. The crate
`log` becomes `trace_log`, since the library has a crate of its name. It says which names would fall together and writes nothing then.
"""
import glob
import os
import re
import shutil
import sys

# Where the new name would fall together with another name, and what is written in its place.
INSTEAD = {"bit-or": "bit-bit_or"}

# A name of a file's own that stands in front of a name: it is a path into generated records, whose names are not ours.
GENERATED = {"c", "w", "l", "g", "goal", "v"}

EDGE = r"\s(){}\[\].,;|«»`⌜⌝"
WORD = re.compile(rf"[^{EDGE}]+")
HEAD = re.compile(r"^\s*(?:let\s+)?(?:(?:abbrev|unfoldable)\s+)?(?:pub\s+)?(?:(?:abbrev|unfoldable)\s+)?(?:(record|data)\s+)?([^\s:(){}\[\],;]+(?:\s+[^\s:(){}\[\],;]+)*)\s+:\s(.*)$")
TYPE = re.compile(r"^\s*(?:pub\s+)?(record|data)\s+(\S+)")
FIELD = re.compile(r"^\s*(?:pub\s+)?([^\s:(){}\[\],;]+)\s+:\s")


def antt(root):
    return sorted(f for part in ("specs", "proofs") for f in glob.glob(f"{root}/crates/*/{part}/**/*.antt", recursive=True))


def rt(root):
    return sorted(glob.glob(f"{root}/crates/*/src/**/*.rt", recursive=True))


def read(path):
    with open(path, encoding="utf-8") as f:
        return f.read()


def code(line):
    """The part of an antt line in front of its comment."""
    return re.split(r"(?:^|\s)--(?:\s|$)", line)[0]


def declared(root):
    """The repository's own names, and whether each is a type."""
    names = {}
    for path in antt(root):
        for line in read(path).split("\n"):
            line = code(line)
            it = TYPE.match(line)
            if it:
                names[it.group(2)] = True
                continue
            it = HEAD.match(line)
            if it and not re.match(r"goal\.", it.group(3)):
                defined = re.match(r"^(?:\s*(?:abbrev|unfoldable)\s|\S)", line)
                for word in it.group(2).split():
                    names[word] = names.get(word, False) or bool(defined and re.search(r"(?:^|→ )Type [01]$", it.group(3).strip()))
    return names


def snake(name):
    name = re.sub(r"(?<=[a-z])([A-Z])", lambda it: "_" + it.group(1).lower(), name)
    return name.replace("-", "_").replace("′", "'")


def camel(name):
    return "".join(part[:1].upper() + part[1:] for part in re.split(r"[-_]", name))


def renamed(names):
    turns = {}
    for name, is_type in names.items():
        if name in INSTEAD:
            new = INSTEAD[name]
        elif not re.match(r"[A-Za-z]", name) or not re.match(r"[\w'′-]+$", name):
            new = name
        elif is_type:
            new = camel(name)
        elif name[0].isupper():
            new = name
        else:
            new = snake(name)
        if new != name:
            turns[name] = new
    return turns


def imported(text):
    """The names that a file takes from other than this repository's crates."""
    found = set()
    for path, items in re.findall(r"^(?:ghost )?use ([^\s{;]+)\.\{([^}]*)\}", text, re.M):
        if not re.match(r"Rattle\.(%s)\." % "|".join(CRATES), path):
            for item in items.split(","):
                found.add(item.split(" as ")[-1].strip())
                found.add(item.split(" as ")[0].strip())
    return found


def turn_words(text, turns, keep, generated):
    out = []
    last = 0
    for it in WORD.finditer(text):
        name = it.group(0)
        if name not in turns or name in keep:
            continue
        if generated and text[it.start() - 1 : it.start()] == ".":
            start = it.start() - 1
            while start > 0 and not re.match(r"[\s(){}\[\],;|]", text[start - 1]):
                start -= 1
            if text[start : it.start()].split(".")[0] in GENERATED:
                continue
        out.append(text[last : it.start()])
        out.append(turns[name])
        last = it.end()
    return "".join(out) + text[last:]


def turn_antt(path, text, turns):
    keep = imported(text)
    generated = os.path.basename(path) in ("Answers.antt", "Invariants.antt")
    lines = []
    for line in text.split("\n"):
        front = code(line)
        own = re.match(r"^(?:abbrev )?pub (\S+) : goal\.(\S+)", front)
        if own:
            keep = keep | {own.group(1)}
        lines.append(turn_words(front, turns, keep, generated) + line[len(front) :])
    return "\n".join(lines)


def turn_rt(text, turns):
    """Only clauses, ghost lines and ghost members have dashes in a name; strings and comments stay."""
    parts = re.split(r'(//[^\n]*|b?"(?:[^"\\]|\\.)*")', text)
    keep = imported(text)
    return "".join(part if i % 2 else turn_words(part, {a: b for a, b in turns.items() if "-" in a}, keep, False) for i, part in enumerate(parts))


def clashes(root, turns):
    """New names that a file has already for something else."""
    found = []
    for path in antt(root):
        words = set()
        for line in read(path).split("\n"):
            words |= set(WORD.findall(re.sub(r"^use [^{]*", "", code(line))))
        news = {}
        for name in words & set(turns):
            new = turns[name]
            if new in words:
                found.append(f"{path}: {name} would be {new}, which stands there")
            if new in news:
                found.append(f"{path}: {name} and {news[new]} would both be {new}")
            news[new] = name
    taken = {}
    for name, new in sorted(turns.items()):
        if new in taken:
            found.append(f"{name} and {taken[new]} would both be {new}")
        taken[new] = name
    return found


def crate_name(root):
    if not os.path.isdir(f"{root}/crates/log"):
        return
    shutil.move(f"{root}/crates/log", f"{root}/crates/trace_log")
    lines = read(f"{root}/crates.txt").split("\n")
    with open(f"{root}/crates.txt", "w", encoding="utf-8") as f:
        f.write("\n".join(re.sub(r"(?<![\w])log(?![\w])", "trace_log", line) if not line.startswith("#") else line for line in lines))
    for path in antt(root) + rt(root):
        text = read(path)
        new = text.replace("Rattle.log.", "Rattle.trace_log.")
        if path.endswith(".rt"):
            new = re.sub(r"(?<![\w:])log::", "trace_log::", new)
        if new != text:
            with open(path, "w", encoding="utf-8") as f:
                f.write(new)


def main():
    global CRATES
    root = sys.argv[1] if len(sys.argv) > 1 else "."
    CRATES = sorted(os.listdir(f"{root}/crates"))
    turns = renamed(declared(root))
    bad = clashes(root, turns)
    if bad:
        print("\n".join(bad))
        sys.exit(1)
    for path in antt(root) + rt(root):
        text = read(path)
        new = turn_antt(path, text, turns) if path.endswith(".antt") else turn_rt(text, turns)
        if new != text:
            with open(path, "w", encoding="utf-8") as f:
                f.write(new)
    crate_name(root)
    print(f"{len(turns)} names turned")


if __name__ == "__main__":
    main()
