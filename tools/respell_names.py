#!/usr/bin/env python3
"""Brings the names of this repository's own definitions and lemmas to one spelling: words in snake case, types in camel case.

usage: python3 tools/respell_names.py [--list] [ROOT]

It ran once, after the toolchain's own script, when the repository moved to a newer Rattle. It reads which names the files of
specs/ and proofs/ define, and respells those that have a dash, a prime or a capital inside a word, wherever they stand in a .antt
file or in a clause of a .rt file. Names of goals, which the checker makes, and names that a file imports from the library stay.
Where two names would fall together in a file, the lemma takes the ending _lem. --list prints the renaming and changes nothing.
"""

import os
import re
import sys

MADE = ("Answers.antt", "Invariants.antt", "Choices.antt", "Proof.antt")
PART = r"[A-Za-z0-9_'\u2032\u2080-\u2089+-]+"
DEFINES = re.compile(r"(?m)^[ \t]*((?:abbrev |unfoldable |pub |record |data |opaque )*)(" + PART + r")[ \t]*(?:\{[^}\n]*\} )?:(?![:=])(.*)$")
RECORD = re.compile(r"(?m)^[ \t]*(?:pub )?record (" + PART + r") [({]")
IMPORT = re.compile(r"(?m)^[ \t]*(?:pub )?(?:ghost )?use ([^;{\n]+)\.\{([^}]*)\}")
TOKEN = re.compile(r"[^\W\d][\w'\u2032\u2080-\u2089]*(?:[-+\u2192][\w'\u2032\u2080-\u2089]+)*")


def texts(root, ending):
    for folder, dirs, files in os.walk(os.path.join(root, "crates")):
        dirs[:] = sorted(d for d in dirs if d != "out")
        for f in sorted(files):
            if f.endswith(ending):
                yield os.path.join(folder, f)


def spelled(name):
    name = name.replace("\u2032", "'").replace("getD", "get_or")
    if name[0].isupper():
        return "".join(w[0].upper() + w[1:] for w in name.split("-"))
    name = re.sub(r"(?<=[a-z0-9])([A-Z])(?=[A-Z]?[a-z]|$)", lambda m: "_" + m.group(1).lower(), name)
    return name.replace("-", "_")


def defined(root):
    """The names that the repository defines, each with the files that define it; those of goals are not its own."""
    names = {}
    for path in texts(root, ".antt"):
        with open(path, encoding="utf-8") as f:
            text = f.read()
        for m in DEFINES.finditer(text):
            made = os.path.basename(path) in MADE and re.match(r"\s*(goal|given|need)\.", m.group(3))
            if not made:
                names.setdefault(m.group(2), set()).add(path)
        for m in RECORD.finditer(text):
            names.setdefault(m.group(1), set()).add(path)
    return names


def renaming(root):
    names = defined(root)
    where = {}
    for path in texts(root, ".antt"):
        with open(path, encoding="utf-8") as f:
            for w in set(TOKEN.findall(f.read())):
                where.setdefault(w, set()).add(path)
    to, stands = {}, {n: set(where.get(n, ())) for n in names if spelled(n) == n}
    for n in sorted((n for n in names if spelled(n) != n), key=lambda n: ("-" in n, not any("/specs/" in p for p in names[n]), n)):
        new = spelled(n)
        while stands.get(new, set()) & where.get(n, set()):
            new += "_lem"
        stands.setdefault(new, set()).update(where.get(n, ()))
        to[n] = new
    return to, names


def foreign(text):
    """The names that a file imports from elsewhere than this repository's crates, and those it takes by a made path."""
    out = set()
    for m in IMPORT.finditer(text):
        if not OWN.match(m.group(1)) or re.search(r"\.(Goals|Given)$", m.group(1)):
            for w in m.group(2).split(","):
                out.add(w.strip().split(" as ")[0].strip())
    return out


def turn(text, to, rust):
    keep = foreign(text)

    def one(m):
        w = m.group(0)
        if w not in to or w in keep:
            return w
        before = text[: m.start()]
        if before.endswith(("goal.", "given.")):
            return w
        return to[w]

    if not rust:
        return TOKEN.sub(one, text)
    lines = []
    for line in text.split("\n"):
        lines.append(line if line.lstrip().startswith("//") else TOKEN.sub(lambda m: to[m.group(0)] if m.group(0) in to and m.group(0) not in keep else m.group(0), line))
    return "\n".join(lines)


def main(argv):
    global OWN
    only_list = "--list" in argv
    rest = [a for a in argv if a != "--list"]
    root = rest[0] if rest else "."
    crates = "|".join(sorted(os.listdir(os.path.join(root, "crates"))))
    OWN = re.compile(r"Rattle\.(?:%s)\.(?:specs|proofs)\b" % crates)
    to, names = renaming(root)
    if only_list:
        for n in sorted(to):
            print(n, to[n])
        return 0
    changed = 0
    for ending in (".antt", ".rt"):
        for path in texts(root, ending):
            with open(path, encoding="utf-8") as f:
                text = f.read()
            new = turn(text, to, ending == ".rt")
            if new != text:
                changed += 1
                with open(path, "w", encoding="utf-8") as f:
                    f.write(new)
    print(f"{len(to)} names respelled, in {changed} files")
    return 0


if __name__ == "__main__":
    raise SystemExit(main(sys.argv[1:]))
