#!/usr/bin/env python3
"""Brings this repository's own names to one spelling: run once, at the top, after the older text was turned to this Rattle's.

Definitions, fields and constructors are in snake case; types and modules keep their capital; a dash in a lemma's name joins two names.
Two names that would fall together are kept apart: the lemma gets `_lem`. Functions of src/, exported names, strings and comments' English stay.
"""

import glob
import re

NAME = re.compile(r"(?<!proofs\.)(?<![\w'?◌-])[A-Za-z][\w'?]*(?:-[\w'?]+)*(?![\w'?◌-])")
DECLARED = re.compile(r"^\s*(?:(?:abbrev|unfoldable|pub|opaque)\s+)*([A-Za-z][\w'?-]*(?:\s+[a-z][\w'?-]*)*)\s+:\s")
# what would fall together with another definition
OWN = {
    "depot-in": "depot_in_range",
    "trainee-in": "trainee_in_range",
    "noneRoom": "none_room_of",
    "saysStable": "tells_stable",
    "strike-cells": "strike_cells_fit",
    "table-cells": "table_cells_fit",
    "notReceived": "is_not_received",
}
# where the lemma alone has the name that a definition is to have, and has it in snake case already
LEMMAS = ["on_line", "table_fits", "none_of", "first_on", "outcome_fits"]


def snake(name):
    return re.sub(r"([a-z0-9])([A-Z])(?=[a-z])", lambda m: m.group(1) + "_" + m.group(2).lower(), name)


def declared(pattern):
    names = set()
    for path in sorted(glob.glob(pattern)):
        with open(path, encoding="utf-8") as f:
            for line in f:
                m = None if line.lstrip().startswith("--") else DECLARED.match(line)
                if m:
                    names.update(m.group(1).split())
    return names - {"pub", "abbrev", "unfoldable"}


def new_names():
    specs, proofs = declared("crates/*/specs/*.antt"), declared("crates/*/proofs/*.antt")
    every = specs | proofs
    new = {}
    for n in sorted(every):
        if n[0].isupper() and "-" not in n:
            continue
        s = OWN.get(n) or (snake(n) if n[0].islower() else n)
        if n in specs:
            s = s.replace("-", "_")
        if s != n:
            new[n] = s
    taken = set(every) - set(new)
    clashes = {}
    for n in sorted(new, key=lambda n: (n not in specs, "-" in n, n)):
        s = new[n]
        if s in taken and s not in LEMMAS:
            clashes[n] = s
            s = new[n] = s + "_lem"
        taken.add(s)
    return new, clashes


def turned(text, new):
    return NAME.sub(lambda m: new.get(m.group(0), m.group(0)), text)


def outside_strings(line, new):
    return "".join(part if i % 2 else turned(part, new) for i, part in enumerate(re.split(r'("(?:[^"\\]|\\.)*")', line)))


def respell(path, new):
    with open(path, encoding="utf-8") as f:
        text = f.read()
    if path.endswith(".antt"):
        walk = re.search(r"/proofs/[+\w]+/", path)
        to = turned(text, new if walk else new | {n: n + "_lem" for n in LEMMAS})
    elif path.endswith((".rt", ".edit")):
        to = "".join(l if l.lstrip().startswith("//") else outside_strings(l, new) for l in text.splitlines(keepends=True))
    else:
        to = re.sub(r"`[^`\n]+`", lambda m: turned(m.group(0), new), text)
    if to != text:
        with open(path, "w", encoding="utf-8") as f:
            f.write(to)
    return to != text


def main():
    new, clashes = new_names()
    paths = [p for k in ("specs/*.antt", "proofs/**/*.antt", "src/*.rt", "must-fail/*.edit") for p in sorted(glob.glob("crates/*/" + k, recursive=True))]
    count = sum(respell(p, new) for p in paths + sorted(glob.glob("docs/*.md")) + ["README.md"])
    print(f"{len(new)} names respelled in {count} files; kept apart: {', '.join(f'{n} as {s}_lem' for n, s in sorted(clashes.items()))}")


main()
