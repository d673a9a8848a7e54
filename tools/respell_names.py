#!/usr/bin/env python3
"""Spells the names of this repository's own definitions, lemmas and record fields in one style: types and facts in
upper camel case, all else in snake case.

usage: python3 tools/respell_names.py [FOLDER]     FOLDER: a checkout (this one, if left out)

It ran once, right after the kit's script had turned the older spelling. It rewrites the .antt files of crates/, and in
the .rt files what is neither a string nor a comment; functions, strings, inputs and outputs keep their names. It stops
where two names would fall together. Names that Rattle makes of the code, such as returns-in_ok-x, are left alone.
"""

import os
import re
import sys

# names whose plain respelling is taken already, or reads badly
BY_HAND = {
    "edge-or": "edge_or_is",
    "header-numbers": "header_fields_are",
    "operand-number": "operand_is_number",
    "remainderOf": "span_remainder",
    "getD-number": "get_or_number",
    "leastOf4": "least_of_4",
    "greatestOf4": "greatest_of_4",
    "remZ-remains": "int_rem_remains",
    "remains-remZ": "remains_int_rem",
    "sameZ": "same_int",
    "true-T": "true_is_true",
}

DEFINED = re.compile(r"^[ \t]*(?:abbrev |unfoldable )?(?:pub )?(record |data |inductive )?([A-Za-z_][A-Za-z0-9_'\u2080-\u2089-]*)(?=[ \t]*[:({])([^\n]*)", re.M)
ALIAS = re.compile(r"(?<= as )([A-Za-z_][A-Za-z0-9_'-]*)")
MADE = re.compile(r":\s*goal\.")
# the kit's script keeps std's older, recursive word under the name of its newer one, which the gate refuses
OLDER_ALL = "{AllByRecursion as All"
TOKEN = re.compile(r"[^\s(){}\[\].,;:\"`@\u00ab\u00bb\u03bb]+")


def spelled(name):
    if name in BY_HAND:
        return BY_HAND[name]
    parts = name.split("-")
    if name[0].isupper():
        return "".join(p[0].upper() + p[1:] for p in parts if p)
    out = []
    for p in parts:
        p = re.sub(r"(?<=[a-z0-9])([A-Z])", r"_\1", p)
        out.append(p.lower())
    return "_".join(out)


def files(root):
    for folder, dirs, names in os.walk(os.path.join(root, "crates")):
        dirs[:] = sorted(d for d in dirs if d not in ("out", ".git"))
        for n in sorted(names):
            if n.endswith((".antt", ".rt")):
                yield os.path.join(folder, n)


def own_names(root):
    found, made = set(), set()
    for path in files(root):
        text = open(path, encoding="utf-8").read()
        for line in text.split("\n"):
            if line.startswith(("use Rattle", "ghost use Rattle")):
                found.update(ALIAS.findall(line))
        if not path.endswith(".antt"):
            continue
        for m in DEFINED.finditer(text):
            if m.group(2) in ("use", "mod", "module", "unfolding", "let"):
                continue
            (made if MADE.match(m.group(3).strip()) else found).add(m.group(2))
    return found - made


def code_parts(text):
    """The text of a .rt file in pieces: (piece, whether it is code and not a string, a character or a comment)."""
    at = 0
    for m in re.finditer(r'//[^\n]*|/\*.*?\*/|b?"(?:\\.|[^"\\])*"', text, re.S):
        yield text[at : m.start()], True
        yield m.group(), False
        at = m.end()
    yield text[at:], True


def main():
    root = sys.argv[1] if len(sys.argv) > 1 else os.path.dirname(os.path.dirname(os.path.abspath(__file__)))
    names = own_names(root)
    turned = {n: spelled(n) for n in names if spelled(n) != n}
    back = {}
    for n in sorted(names):
        back.setdefault(spelled(n), []).append(n)
    fallen = {k: v for k, v in back.items() if len(v) > 1}
    if fallen:
        for k, v in sorted(fallen.items()):
            print(f"{', '.join(v)} would all be {k}", file=sys.stderr)
        return 1

    def turn(text):
        return TOKEN.sub(lambda m: turned.get(m.group(), m.group()), text)

    for path in files(root):
        text = open(path, encoding="utf-8").read()
        if path.endswith(".antt"):
            new = turn(text)
        else:
            new = "".join(turn(piece) if code else piece for piece, code in code_parts(text))
        if OLDER_ALL in new:
            new = TOKEN.sub(lambda m: "AllByRecursion" if m.group() == "All" else m.group(), new)
            new = new.replace("AllByRecursion as AllByRecursion", "AllByRecursion")
        if new != text:
            open(path, "w", encoding="utf-8").write(new)
    for n in sorted(turned):
        print(f"{n} {turned[n]}")
    return 0


sys.exit(main())
