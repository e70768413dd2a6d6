#!/usr/bin/env python3
"""Respells this repository's own definitions and lemmas: words in snake case, facts and types in camel case.

usage: python3 tools/respell.py [DIR]    once, at the top of a checkout that port.py has turned, before any edit by hand

A name is respelled where a file of specs/ or proofs/ declares it with a dash. Names of std and names that Rattle makes keep
theirs, and so do functions of src/, strings and prose; comments and pages follow where they quote a name.
"""

import os
import re
import sys

# Lemmas named after a fact of std keep their dash and its capital.
KEPT = {"All-map"}
# Names that would fall together with another name in their place.
OTHERWISE = {
    "Line-fault": "FaultInLine",
    "figures-stand": "figures_stand_lem",
    "file-length": "file_length_lem",
    "values-are-steps": "values_are_steps_lem",
}

WORD = r"[^\s(){}\[\],;:.\"`=]"
NAME = re.compile(r"[A-Za-z][\w']*(?:-[\w']+)+")
IN_TEXT = re.compile(r"(?<![\w'\-◌′])[A-Za-z][\w']*(?:-[\w']+)+(?![\w'\-◌′])")
DECLARES = re.compile(r"^\s*(?:(?:pub|abbrev|unfoldable|data|record|ruleset) )*((?:" + WORD + r"+ )*?" + WORD + r"+)(?: +[({].*?[)}])*\s*:(?:\s+(.*))?$")


def files(root, *endings):
    for folder, dirs, names in os.walk(root):
        dirs[:] = sorted(d for d in dirs if d not in ("out", ".git", "target"))
        for name in sorted(names):
            if name.endswith(endings):
                yield os.path.join(folder, name)


def declared(root):
    """The names with a dash that files of specs/ and proofs/ declare, but for answers to goals, which Rattle names."""
    names = set()
    for path in files(os.path.join(root, "crates"), ".antt"):
        with open(path, encoding="utf-8") as f:
            for line in f:
                if line.lstrip().startswith(("--", "use ")):
                    continue
                m = DECLARES.match(line.rstrip("\n"))
                if m and not (m.group(2) or "").startswith(("goal.", "need.")):
                    names |= {n for n in m.group(1).split() if NAME.fullmatch(n)}
    return names


def respelled(name):
    if name in KEPT:
        return name
    if name in OTHERWISE:
        return OTHERWISE[name]
    if name[0].isupper():
        return "".join(part[0].upper() + part[1:] for part in name.split("-"))
    return name.replace("-", "_")


def turned(text, table):
    return IN_TEXT.sub(lambda m: table.get(m.group(0), m.group(0)), text)


def capitals(table):
    return {old: new for old, new in table.items() if old[0].isupper()}


def turn_line(line, table, comment):
    """Code is respelled whole, a comment only in its capitalised names, a string not at all."""
    at = line.find(comment)
    if comment == "--":
        m = re.search(r"(?:^|\s)--(?:\s|$)", line)
        at = m.start() if m else -1
    code, said = (line, "") if at < 0 else (line[:at], line[at:])
    parts = re.split(r'("(?:[^"\\]|\\.)*")', code)
    code = "".join(p if p.startswith('"') else turned(p, table) for p in parts)
    return code + turned(said, capitals(table))


def main(root):
    own = declared(root)
    table = {old: respelled(old) for old in own}
    table = {old: new for old, new in table.items() if old != new}
    taken = {}
    for old, new in sorted(table.items()):
        if new in taken:
            print(f"falls together: {old} and {taken[new]}")
        taken[new] = old
    for path in files(os.path.join(root, "crates"), ".antt", ".rt", ".edit"):
        comment = "--" if path.endswith(".antt") else "//"
        with open(path, encoding="utf-8") as f:
            text = f.read()
        now = "".join(turn_line(line, table, comment) for line in text.splitlines(keepends=True))
        if now != text:
            with open(path, "w", encoding="utf-8") as f:
                f.write(now)
    for path in [os.path.join(root, "README.md"), *files(os.path.join(root, "docs"), ".md")]:
        with open(path, encoding="utf-8") as f:
            text = f.read()
        now = re.sub(r"`[^`\n]+`", lambda m: turned(m.group(0), table), text)
        now = turned(now, capitals(table))
        if now != text:
            with open(path, "w", encoding="utf-8") as f:
                f.write(now)
    print(f"{len(table)} names respelled")


if __name__ == "__main__":
    main(sys.argv[1] if len(sys.argv) > 1 else ".")
