#!/usr/bin/env python3
"""Respells this repository's own definitions and lemmas: words in snake case, types and modules in camel case.

usage: python3 tools/respell.py        at the top of the repository, once, right after the kit's port.py

A name is the repository's own where it stands with a hyphen in specs/, in a lemma file of proofs/ or in a clause, and no file imports it from a library.
Functions of src/, strings, inputs and outputs keep their names. In comments and pages only what stands between back quotes is turned.
"""

import glob
import os
import re
import sys

NAME = re.compile(r"[^\s(){}\[\],;.λ→×∷+*/=≡≤<`\"|:]*[A-Za-z0-9]-[A-Za-z0-9][^\s(){}\[\],;.`\"|:]*")
# names that would fall together with another one
BY_HAND = {"Not-begun": "NotBegunFault"}


def crates():
    return {line.split("#")[0].replace(":", " ").split()[0] for line in open("crates.txt", encoding="utf-8") if line.strip()}


def code(path, text):
    """The text without its comments and strings."""
    if path.endswith(".rt"):
        text = re.sub(r'"(\\.|[^"\\])*"', '""', text)
        return re.sub(r"(?m)//.*$", "", text)
    return re.sub(r"(?m)--.*$", "", text)


def imported(text, own):
    for m in re.finditer(r"use ([\w.'-]+)\.\{([^}]*)\}", text):
        path = m.group(1).split(".")
        if path[0] == "Rattle" and path[1] in own:
            continue
        for item in m.group(2).split(","):
            yield item.strip().split(" as ")[0].strip()


def states(path):
    return path.endswith(".rt") or "/specs/" in path or re.fullmatch(r"crates/\w+/proofs/\w+\.antt", path)


def respelled(name):
    if name in BY_HAND:
        return BY_HAND[name]
    if name[0].isupper():
        return "".join(w[:1].upper() + w[1:] for w in name.split("-"))
    return re.sub(r"([a-z0-9])([A-Z])", r"\1_\2", name).replace("-", "_").lower()


def names(files):
    own = crates()
    library, standing = set(), set()
    for path, text in files.items():
        bare = code(path, text)
        library |= set(imported(bare, own))
        if states(path):
            standing |= set(NAME.findall(bare))
    return {n: respelled(n) for n in standing - library}


def turned(text, table):
    return NAME.sub(lambda m: table.get(m.group(0), m.group(0)), text)


def quoted(text, table):
    return re.sub(r"`[^`\n]*`", lambda m: turned(m.group(0), table), text)


def turn_file(path, text, table):
    if path.endswith(".md"):
        return quoted(text, table)
    mark = "//" if path.endswith(".rt") else "--"
    lines = []
    for line in text.split("\n"):
        at = line.find(mark) if not path.endswith(".edit") else -1
        head, tail = (line, "") if at < 0 else (line[:at], line[at:])
        lines.append(turned(head, table) + quoted(tail, table))
    return "\n".join(lines)


def main():
    found = sorted(glob.glob("crates/**/*.antt", recursive=True) + glob.glob("crates/**/*.rt", recursive=True))
    found = [f for f in found if "/out/" not in f]
    files = {f: open(f, encoding="utf-8").read() for f in found}
    table = names(files)
    words = {w for f, t in files.items() for w in re.findall(r"[\w'-]+", code(f, t))}
    for n, m in sorted(table.items()):
        if m in words:
            print(f"look: {n} becomes {m}, which stands in the files already")
    if len(set(table.values())) != len(table):
        sys.exit("two names fall together")
    pages = [p for p in glob.glob("docs/*.md") + ["README.md"] if not os.path.basename(p).startswith("PORT")]
    for path in found + sorted(glob.glob("crates/*/must-fail/*.edit")) + pages:
        text = files.get(path) or open(path, encoding="utf-8").read()
        new = turn_file(path, text, table)
        if new != text:
            open(path, "w", encoding="utf-8").write(new)
    print(f"{len(table)} names respelled")


if __name__ == "__main__":
    main()
