#!/usr/bin/env python3
"""Spells the names of goals and steps that answers cite as today's Rattle makes them: a name of the source keeps its
underscores, as in read_edge-requires, and the arms of a ? are in_ok and in_err.

usage: python3 tools/respell_goals.py CRATE..      in a checkout, after the kit's scripts
"""

import os
import re
import sys

TOKEN = re.compile(r"[^\s(){}\[\].,;:\"`@\u00ab\u00bb\u03bb+]+")
MADE_OF_CALLS = ["from_residual", "as_slice", "as_mut_slice", "as_str", "with_capacity", "push_str", "from_be_bytes", "to_be_bytes"]


def files(folder, ending):
    for at, dirs, names in os.walk(folder):
        dirs[:] = sorted(d for d in dirs if d != "out")
        for n in sorted(names):
            if n.endswith(ending):
                yield os.path.join(at, n)


def main():
    for crate in sys.argv[1:]:
        folder = os.path.join("crates", crate)
        words = set(MADE_OF_CALLS)
        for path in files(os.path.join(folder, "src"), ".rt"):
            words.update(w for w in re.findall(r"[A-Za-z][A-Za-z0-9_]*", open(path, encoding="utf-8").read()) if "_" in w)
        words = sorted(words, key=lambda w: (-len(w), w))

        def turn(m):
            t = m.group()
            if "-" not in t:
                return t
            t = re.sub(r"(?<![A-Za-z])in-(ok|err)-", r"in_\1-", t)
            t = re.sub(r"^overflow-(add|sub|mul|shl|shr|cast|step)-", r"overflow_\1-", t)
            for w in words:
                t = re.sub(rf"(?<![A-Za-z0-9_]){re.escape(w.replace('_', '-'))}(?![A-Za-z0-9_])", w, t)
            return t

        for path in files(os.path.join(folder, "proofs"), ".antt"):
            if os.path.basename(path) not in ("Answers.antt", "Invariants.antt"):
                continue
            text = open(path, encoding="utf-8").read()
            new = TOKEN.sub(turn, text)
            if new != text:
                open(path, "w", encoding="utf-8").write(new)
                print(path)


main()
