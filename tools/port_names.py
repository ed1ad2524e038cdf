#!/usr/bin/env python3
"""Brings the definitions and lemmas of specs/ and proofs/ to the spelling of today's Rattle, once, after the kit's port.py.

usage: python3 tools/port_names.py            at the top of the repository

Words are in snake case: cutPivots becomes cut_pivots, zero-or becomes zero_or. A dash stays beside a part that begins with
a capital or is an operator, as in antisym-Key, and between two names where one was written in camel case, as in
length-encode_all. Types, facts and the names that docs/src has (PivotLcp, Translate) keep their capitals. A lemma that would
get a definition's name ends in _lem. Names of Rattle source, and those that Rattle makes, are not touched: the files of
proofs/ that belong to one function (Proof, Invariants, Answers) declare nothing here. RENAMED has the names that another
rule decides: a word whose clauses also have a parameter or a function of that name.
"""

import os
import re
import sys

STOPS = r"\s(){}\[\].,;:«»"
DECLARED = re.compile(rf"^(\s*)((?:abbrev |unfoldable |pub |opaque )*)(data |record |ruleset |syntax )?([^{STOPS}]+)((?:\s*\{{[^}}]*\}})*)\s*(:|=)(\s|$)")
TOKEN = re.compile(rf"[^{STOPS}]+")
OF_ONE_FUNCTION = ("Proof.antt", "Invariants.antt", "Answers.antt")
RENAMED = {}


def files(*endings):
    for folder, below, names in os.walk("crates"):
        below[:] = sorted(d for d in below if d != "out")
        for name in sorted(names):
            if name.endswith(endings):
                yield os.path.join(folder, name)


def declared():
    """The names that the files of specs/ and proofs/ declare, those of one function's proof aside."""
    names = set()
    for path in files(".antt"):
        if os.path.basename(path) in OF_ONE_FUNCTION:
            continue
        with open(path, encoding="utf-8") as f:
            for line in f:
                if line.startswith(("--", "use ", "pub use ")):
                    continue
                it = DECLARED.match(line)
                if it and (it[6] == ":" or it[3] or "abbrev" in it[2]):
                    names.add(it[4])
    return names


def snake(part):
    return re.sub(r"([a-z0-9])([A-Z])", lambda m: m[1] + "_" + m[2].lower(), part)


def spelled(name):
    """The name in today's spelling."""
    if name in RENAMED:
        return RENAMED[name]
    if not re.match(r"[a-z]", name):
        return name
    parts = name.split("-")
    said = snake(parts[0])
    for before, part in zip(parts, parts[1:]):
        joins = any(not re.fullmatch(r"[a-z0-9']+", p) for p in (before, part))
        said += ("-" if joins else "_") + (part if part[:1].isupper() else snake(part))
    return said


def renaming(names):
    """Old to new name; of two that would be one, a lemma with dashes ends in _lem."""
    new = {n: spelled(n) for n in names}
    taken = {}
    for n in sorted(names, key=lambda n: ("-" in n, n)):
        while new[n] in taken:
            new[n] += "_lem"
        taken[new[n]] = n
    return {n: m for n, m in new.items() if n != m}


def turned(text, new):
    return TOKEN.sub(lambda m: new.get(m[0], m[0]), text)


def turn_antt(text, new):
    lines = text.split("\n")
    camel = {n: m for n, m in new.items() if "-" not in n}
    return "\n".join(turned(line, camel if line.lstrip().startswith("--") else new) for line in lines)


def turn_rt(text, new):
    """Clauses and ghost lines: the names with dashes stand only there, and so do the others."""
    lines = text.split("\n")
    for i, line in enumerate(lines):
        said = line.lstrip()
        if said.startswith(("ghost ", "requires ", "ensures ")):
            lines[i] = turned(line, new)
        elif said.startswith("//"):
            lines[i] = turned(line, {n: m for n, m in new.items() if "-" not in n})
    return "\n".join(lines)


def main():
    if not os.path.isdir("crates"):
        sys.exit("run it at the top of the repository")
    new = renaming(declared())
    for path in files(".antt", ".rt"):
        with open(path, encoding="utf-8") as f:
            text = f.read()
        said = turn_rt(text, new) if path.endswith(".rt") else turn_antt(text, new)
        if said != text:
            with open(path, "w", encoding="utf-8") as f:
                f.write(said)
    for n in sorted(new):
        print(n, new[n])


if __name__ == "__main__":
    main()
