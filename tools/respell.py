#!/usr/bin/env python3
"""Respells this repository's own definitions and lemmas in snake case, after port.py and before any edit by hand.

usage: python3 tools/respell.py     at the top of the repository, once

What specs/ and proofs/ name with dashes (`with-next`) gets underscores (`with_next`), a type or a record likewise in camel case
(`Result-of` becomes `ResultOf`), and the aliases of src/ in mixed case become snake case. Words of the library (those that some `use`
of another crate brings in, and those that the check makes for a proof file) keep their spelling, and so does prose in comments.
It says which new names stood already, since two names may have fallen together.
"""

import pathlib
import re
import sys

NAME = re.compile(r"(?<![\w'◌-])[A-Za-z_][\w']*(?:-[\w']+)+")
WORD = re.compile(r"(?<![\w'◌-])[A-Za-z_][\w'-]*")
LIBRARY = re.compile(r"(?m)^(?:ghost )?use (?:mathlib|native|Prim|lib|Rattle\.std)\b[^;\n]*")
PROSE = {"set-up", "rule-independent", "in-turn", "in-range"}
ALIASES = {
    "followsFrom": "follows_from", "entryOn": "entry_on", "namesIn": "names_in", "faultsIn": "faults_in", "repeatsKey": "repeats_key",
    "doublesIn": "doubles_in", "splitAt": "split_at", "numbersIn": "numbers_in", "comesBefore": "comes_before", "isAwaited": "is_awaited", "isHead": "is_head",
}


def respelled(name):
    parts = name.split("-")
    if name[0].isupper() and name not in ("All-append", "All-map"):
        return "".join(p[0].upper() + p[1:] for p in parts)
    return "_".join(parts)


def split(line):
    """The code of a line of antt, and its comment."""
    m = re.search(r"--(?=\s|$)", line)
    return (line[: m.start()], line[m.start():]) if m else (line, "")


def main():
    top = pathlib.Path(".")
    own_files = sorted(top.glob("crates/*/specs/*.antt")) + sorted(top.glob("crates/*/proofs/*.antt"))
    files = sorted(p for p in top.glob("crates/**/*") if p.suffix in (".rt", ".antt", ".edit") and "out" not in p.parts)
    texts = {p: p.read_text() for p in files}
    library, words = set(), set()
    for t in texts.values():
        for line in LIBRARY.findall(t):
            library |= set(NAME.findall(line))
    own = set()
    for p in own_files:
        for line in texts[p].split("\n"):
            own |= set(NAME.findall(split(line)[0]))
    own -= library
    for t in texts.values():
        words |= set(WORD.findall(t))
    table = {n: respelled(n) for n in own} | {a: b for a, b in ALIASES.items() if a in words}
    for old, new in sorted(table.items()):
        if new in words:
            print(f"stood already: {new}, from {old}")

    def turn(text):
        return WORD.sub(lambda m: table.get(m.group(0), m.group(0)), text)

    def comment(text):
        head = re.match(r"--     (?=\S)", text)
        return NAME.sub(lambda m: m.group(0) if m.group(0) in PROSE and not (head and m.start() == head.end()) else turn(m.group(0)), text)

    n = 0
    for p, t in texts.items():
        if p.suffix == ".antt":
            new = "\n".join(turn(c) + comment(d) for c, d in map(split, t.split("\n")))
        else:
            new = turn(t)
        if new != t:
            p.write_text(new)
            n += 1
    print(f"respelled: {len(table)} names in {n} files")


if __name__ == "__main__":
    sys.exit(main())
