#!/usr/bin/env python3
"""Spells the definitions, fields, constructors, variables and lemmas of this repository as today's Rattle does.

Words stand in snake case, a dash between two names.

usage: python3 tools/respell.py            at the top of the repository, once, after port.py

It reads each .antt, .rt and .edit file under crates/ and turns each name in camel case, as rowSpace or length-rowSpace, into snake case.
Types, facts and modules keep their capitals. A lemma that would get its definition's name takes _lem. It stops, and writes nothing, where
two names would fall together in a file, or where a parameter of a function would hide a definition that its clauses cite. In an .edit file
the text that an edit replaces is respelled too.
"""

import os
import re
import sys

NAME = re.compile(r"(?<![\w'◌])(?!b'.')[a-z][\w'-]*")
HUMP = re.compile(r"(?<=[a-z0-9'])[A-Z]")
BESIDE = re.compile(r"--.*|\.[\w'-]+")
SIGNATURE = re.compile(r"\bfn (\w+)\s*(?:<[^>]*>)?\((.*?)\)(.*?)\n\s*\{\n", re.S)


# Lemmas that would have the name of the definition they are about.
LEMMAS = re.compile(r"(?<![\w'.-])(?:and_bytes|or_bytes|some_bytes|next_place|is_bound|own_read)(?![\w'.-])")


def spelled(name):
    parts = name.split("-")
    return "-".join(HUMP.sub(lambda m: "_" + m.group().lower(), p) if p[:1].islower() else p for p in parts)


def files(top):
    for folder, inner, names in os.walk(top):
        inner[:] = sorted(d for d in inner if d != "out")
        for name in sorted(names):
            if name.endswith((".antt", ".rt", ".edit")):
                yield os.path.join(folder, name)


def fallen(path, text):
    """Names of a file that fall together, and parameters that hide a definition."""
    said = []
    if path.endswith(".antt"):
        names = set(NAME.findall(BESIDE.sub("", text)))
        said = [f"{path}: {n} and {spelled(n)}" for n in sorted(names) if spelled(n) != n and spelled(n) in names]
    if path.endswith(".rt"):
        for name, parameters, clauses in SIGNATURE.findall(text):
            taken = set(re.findall(r"(?:^|,)\s*(?:mut )?(\w+)\s*:", parameters))
            cited = {spelled(n) for n in NAME.findall(clauses) if spelled(n) != n}
            said += [f"{path}: {name}: parameter {n} hides a definition" for n in sorted(taken & cited)]
    return said


def main():
    texts = {p: open(p, encoding="utf-8").read() for p in files("crates")}
    named = {p: LEMMAS.sub(r"\g<0>_lem", t) if p.endswith(".antt") else t for p, t in texts.items()}
    said = [s for p, t in named.items() for s in fallen(p, t)]
    if said:
        print("\n".join(said))
        return 1
    count = 0
    for path, text in texts.items():
        new = NAME.sub(lambda m: spelled(m.group()), named[path])
        if new != text:
            count += 1
            with open(path, "w", encoding="utf-8") as f:
                f.write(new)
    print(f"respell: {count} files")
    return 0


if __name__ == "__main__":
    raise SystemExit(main())
