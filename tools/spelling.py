#!/usr/bin/env python3
"""Spells the names of specs/, proofs/ and clauses as today's Rattle does: words in snake case, `get_or` for the reading of a list with a default.

usage: tools/spelling.py    at the top, once, after the port.py of the kit: rewrites crates/*/{src,specs,proofs}, README.md and the pages of docs/

Types and modules keep their capitals, names of functions in src/ are in snake case already, and numbers such as 0xFF are left alone. The pages follow:
a name there is respelled where the crates had it.
"""

import os
import re

NAME = re.compile(r"(?<![\w'])[A-Za-z_◌][\w'◌→-]*")
HUMP = re.compile(r"(?<=[a-z0-9])([A-Z]+)")
# A lemma that would take the name of the definition it speaks of.
LEMMAS = {"crates/planner_index/specs": {"index_in": "index_in_lem"}}


def spelled(name):
    """The name in snake case, but for the parts of it that are types."""
    parts = re.split(r"(-|→|◌)", name)
    parts = [HUMP.sub(lambda m: "_" + m[1].lower(), p) if p[:1].islower() else p for p in parts]
    return re.sub(r"(?<![\w'])get_d(?=[-_]|$)", "get_or", "".join(parts))


def files(folders, endings):
    for top in folders:
        for folder, inner, names in os.walk(top):
            inner[:] = sorted(d for d in inner if d not in ("out", "must-fail", "changes"))
            for name in sorted(names):
                if name.endswith(endings):
                    yield os.path.join(folder, name)


def rewrite(path, turn):
    with open(path, encoding="utf-8") as it:
        was = it.read()
    now = turn(was)
    if now != was:
        with open(path, "w", encoding="utf-8") as it:
            it.write(now)


def main():
    known = set()

    def turned(path):
        own = next((names for folder, names in LEMMAS.items() if path.startswith(folder)), {})

        def name(m):
            known.add(new := own.get(m[0]) or spelled(m[0]))
            return new

        return lambda text: NAME.sub(name, text.replace("′", "'"))

    for path in files(["crates"], (".rt", ".antt")):
        rewrite(path, turned(path))
    page = lambda text: NAME.sub(lambda m: spelled(m[0]) if spelled(m[0]) in known else m[0], text)
    for path in ["README.md", *files(["docs"], (".md",))]:
        rewrite(path, page)


main()
