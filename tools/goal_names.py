#!/usr/bin/env python3
"""Respells in a crate's proofs the names that Rattle makes: a name of the source keeps its underscores in them.

usage: python3 tools/goal_names.py crates/NAME NAMES    where NAMES is the folder that `rt check --generated NAMES --old-names` wrote
"""

import json
import os
import re
import sys

TOKEN = re.compile(r"(?<![\w'\-◌])[A-Za-z][\w']*(?:-[\w'0-9]+)*(?![\w'\-◌])")


def strings(value):
    if isinstance(value, str):
        yield value
    elif isinstance(value, list):
        for each in value:
            yield from strings(each)
    elif isinstance(value, dict):
        for key, each in value.items():
            yield key
            yield from strings(each)


def plain(name):
    return name.replace("_", "-")


def names_of(entry):
    known = {s for s in strings(entry) if re.fullmatch(r"[A-Za-z][\w'\-]*", s)}
    by_plain = {}
    for name in known:
        by_plain.setdefault(plain(name), set()).add(name)
    for name in list(known):
        for part in [re.sub(r"^(In|After|Then|Else|Joined|By)\d*-", "", name)]:
            by_plain.setdefault(plain(part), set()).add(part)
    return known, {k: next(iter(v)) for k, v in by_plain.items() if len(v) == 1}


def main(crate, folder):
    with open(os.path.join(folder, "names.json"), encoding="utf-8") as f:
        table = json.load(f)
    name = os.path.basename(os.path.normpath(crate))
    turned = 0
    for key, entry in table.items():
        m = re.fullmatch(rf"Rattle-{name}-proofs\.(.*)\.Lts", key)
        if not m:
            continue
        where = os.path.join(crate, "proofs", *m.group(1).split("."))
        if not os.path.isdir(where):
            continue
        known, by_plain = names_of(entry)
        for file in ("Answers.antt", "Invariants.antt", "Proof.antt", "Choices.antt"):
            path = os.path.join(where, file)
            if not os.path.exists(path):
                continue
            with open(path, encoding="utf-8") as f:
                text = f.read()
            imported = set()
            for line in text.splitlines():
                u = re.match(r"use (Rattle\.std|Rattle\.\w+\.(specs|proofs\.[A-Z])|borrow|lib|mathlib)[^{]*\{(.*)\}", line)
                if u:
                    imported |= {w for part in u.group(3).split(",") for w in part.split()}

            def turn(m):
                word = m.group(0)
                behind_dot = m.start() > 0 and m.string[m.start() - 1] == "."
                if word in known or word in imported or not ("-" in word or ("_" in word and behind_dot)):
                    return word
                return by_plain.get(plain(word), word)

            now = "\n".join(line if re.match(r"use (?!.*Goals\.\{)", line) else TOKEN.sub(turn, line) for line in text.split("\n"))
            if now != text:
                with open(path, "w", encoding="utf-8") as f:
                    f.write(now)
                turned += 1
    print(f"{turned} files turned")


if __name__ == "__main__":
    main(*sys.argv[1:])
