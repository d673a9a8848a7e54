#!/usr/bin/env python3
"""Lists the places in crates/*/src that docs/DESIGN-PASS.md counts, at a commit or in the working tree.

    python3 tools/design_places.py [COMMIT]

A row is a place to look at. Whether it is one of the older forms is for a reader to say; docs/DESIGN-PASS.md says it.
"""
import collections
import re
import subprocess
import sys


def files(commit):
    if commit is None:
        names = subprocess.check_output(["git", "ls-files", "-co", "--exclude-standard", "crates"], text=True).split()
        read = lambda name: open(name, encoding="utf-8").read()
    else:
        names = subprocess.check_output(["git", "ls-tree", "-r", "--name-only", commit, "crates"], text=True).split()
        read = lambda name: subprocess.check_output(["git", "show", f"{commit}:{name}"], text=True)
    out = {}
    for name in names:
        if re.match(r"crates/\w+/(src/.*\.rt|proofs/.*\.antt|specs/.*\.antt)$", name):
            try:
                out[name] = read(name)
            except FileNotFoundError:
                pass
    return out


def line_of(text, at):
    return text.count("\n", 0, at) + 1


def block(text, at):
    """The text between the first `{` from `at` on and its `}`."""
    start = text.index("{", at)
    depth = 0
    for i in range(start, len(text)):
        depth += {"{": 1, "}": -1}.get(text[i], 0)
        if depth == 0:
            return text[start + 1 : i]
    return text[start + 1 :]


def plain(text):
    """The text with comments and the contents of strings blanked, line by line."""
    text = re.sub(r"//[^\n]*", "", text)
    return re.sub(r'"(?:\\.|[^"\\\n])*"', '""', text)


def arms(body):
    """The patterns of a match's arms, at the outermost level."""
    found, depth, start = [], 0, 0
    i = 0
    while i < len(body):
        c = body[i]
        if c in "([{":
            depth += 1
        elif c in ")]}":
            depth -= 1
            if depth == 0 and c == "}":
                start = i + 1
        elif depth == 0 and body.startswith("=>", i):
            found.append((body[start:i].strip(" ,\n"), i + 2))
            i += 2
            continue
        elif depth == 0 and c == ",":
            start = i + 1
        i += 1
    return found


def functions(text):
    """Name, place, parameters and clauses of each function."""
    for m in re.finditer(r"\bfn (\w+)(?:<[^(]*>)?\(", text):
        at, depth = m.end(), 1
        while depth:
            depth += {"(": 1, ")": -1}.get(text[at], 0)
            at += 1
        params = re.findall(r"(\w+): ([^,]+(?:<[^>]*>)?[^,]*)", text[m.end() : at - 1])
        head = text[at:]
        end = re.search(r"\n\s*\{\n|\n\s*\{\}|;\n|\{\n", head)
        head = head[: end.start()] if end else head
        clauses = re.findall(r"requires(?: \w+)? \{(.*?)\}\s*(?=requires|ensures|where|$)", head, re.S)
        yield m.group(1), m.start(), params, clauses, head


def main():
    commit = sys.argv[1] if len(sys.argv) > 1 else None
    tree = files(commit)
    source = {name: plain(text) for name, text in tree.items() if name.endswith(".rt")}
    rows = collections.defaultdict(list)

    # what a trait declares stands in each of its impls by the same name
    declared = {"fmt", "from", "main", "run"}
    for text in source.values():
        for m in re.finditer(r"\btrait \w+", text):
            declared.update(re.findall(r"\bfn (\w+)", block(text, m.end())))

    names = collections.defaultdict(set)
    facts = collections.defaultdict(set)
    groups = collections.defaultdict(set)
    for name, text in sorted(source.items()):
        crate = name.split("/")[1]

        def row(kind, at, what):
            rows[kind].append(f"{name}:{line_of(text, at)}  {what}")

        for m in re.finditer(r"\benum (\w+)", text):
            depth, variants, word = 0, [], ""
            for c in block(text, m.end()) + ",":
                depth += {"{": 1, "(": 1, "}": -1, ")": -1}.get(c, 0)
                if c == "," and depth == 0:
                    if word.strip():
                        variants.append(" ".join(word.split()))
                    word = ""
                else:
                    word += c
            if len(variants) == 2 and any("(" in v or "{" in v for v in variants):
                row("1 enum of two variants, one with a value", m.start(), f"{m.group(1)}: {' | '.join(variants)}")
        for m in re.finditer(r"\bstruct (\w+)[^;{(]*\{", text):
            body = block(text, m.start())
            if re.search(r": bool,", body) and body.count(":") > 1:
                row("1 struct with a flag", m.start(), m.group(1))
        for m in re.finditer(r"\b(form|mark|kind|code|number): (u8|u32)\b", text):
            row("1 number for a form, a mark, a kind or a refusal", m.start(), m.group(0))
        for m in re.finditer(r"\bmatch ([^{}\n]+) \{\n", text):
            patterns = [p for p, _ in arms(block(text, m.end() - 2))]
            if patterns and all(re.match(r"(Some|Ok|Err)\(|None$|Some\(_\)", p) for p in patterns):
                row("1 match on Some and None, or Ok and Err", m.start(), " ".join(m.group(0).split()))
            literals = [p for p in patterns if re.match(r"-?\d", p)]
            if literals and len(literals) >= len(patterns) - 1:
                row("1 match on numbers", m.start(), " ".join(m.group(0).split()))
            calls = re.findall(r"=> (?:Ok\()?[\w:<>]+\((?:[\w.&*, ]*)\)", block(text, m.end() - 2))
            if len(patterns) > 1 and len(calls) == len(patterns):
                row("7 match whose every arm is one call", m.start(), " ".join(m.group(0).split()))
        for m in re.finditer(r"\bfor (.+?) in ([^{\n]*\.\.[^{\n]*) \{|\b(while|loop)\b[^\n]*\{", text):
            row("3 loop over a range of numbers, `while`, `loop`", m.start(), m.group(0))
        for m in re.finditer(r"^ *for [^{\n]* \{\n", text, re.M):
            if re.search(r"\.push(_str)?\(|write!\(", block(text, m.start())):
                row("3 loop that gathers", m.start(), " ".join(m.group(0).split()))
        for m in re.finditer(r"\w+\[\w+ \+ \d\]", text):
            row("3 one index after the other", m.start(), m.group(0))
        for m in re.finditer(r"saturating_add\(1\)", text):
            row("3 count kept by hand", m.start(), m.group(0))
        for m in re.finditer(r"\bas (u8|u16|u32|u64|usize|i32|i64)\b", text):
            row("4 `as`", m.start(), text[text.rfind("\n", 0, m.start()) + 1 : m.end()].strip())
        for m in re.finditer(r"\bfn (\w+)\([^)]*\) -> &'static str", text):
            row("4 function that answers a word", m.start(), m.group(1))
        for m in re.finditer(r"\bfn (parse_\w+|\w+_form|\w+_of)\(", text):
            row("4 conversion with a name of its own", m.start(), m.group(1))
        for m in re.finditer(r"\bimpl (Clone|Copy|PartialEq|Eq|PartialOrd|Ord|Hash|Debug|Default)\b", text):
            row("4 impl that a derive could write", m.start(), m.group(0))
        for m in re.finditer(r"((?:#\[[^\n]*\]\s*)*)(?:pub(?:\(crate\))? )?(?:struct|enum) (\w+)", text):
            if "Debug" not in m.group(1):
                row("4 type without Debug", m.start(), m.group(2))
        for m in re.finditer(r"\bfn (name_length|name)\b|truncate\(", text):
            row("6 length beside what it counts", m.start(), m.group(0))
        for m in re.finditer(r"\bdyn \w+|: fn\(|\benum Table\b", text):
            row("7 table or pointer", m.start(), m.group(0))

        for fn, at, params, clauses, head in functions(text):
            if fn not in declared:
                names[fn].add(f"{name}:{line_of(text, at)}")
            for clause in clauses:
                if " × " in clause:
                    row("5 requires with several facts in one clause", at, fn)
                for fact in re.split(r" × ", clause):
                    fact = re.sub(r"[()\s]+", " ", fact).strip()
                    fact = re.sub(r"\.(now|old|new)\b", "", fact)
                    facts[fact].add(f"{name}:{fn}")
            shown = [(p, t.strip()) for p, t in params if p not in ("self", "rt", "heap", "bytes")]
            for i in range(len(shown)):
                for j in range(i + 1, len(shown)):
                    groups[(shown[i], shown[j])].add(f"{name}:{fn}")
        for m in re.finditer(r"\b(?:struct|enum|trait) (\w+)", text):
            names[m.group(1)].add(f"{name}:{line_of(text, m.start())}")

    for what, where in sorted(names.items()):
        if len({w.split("/")[1] for w in where}) > 1:
            rows["2 name in more than one crate"].append(f"{what}: {', '.join(sorted(where))}")
    for what, where in sorted(facts.items()):
        if len(where) >= 3 and what:
            rows["5 fact that three or more functions require"].append(f"{{ {what} }} in {len(where)}: {', '.join(sorted(where))}")
    for what, where in sorted(groups.items()):
        if len(where) >= 4:
            pair = ", ".join(f"{p}: {t}" for p, t in what)
            rows["5 parameters together in four or more functions"].append(f"({pair}) in {len(where)}: {', '.join(sorted(where))}")
    proofs = {n: t for n, t in tree.items() if "/proofs/" in n}
    answers = [n for n in proofs if n.endswith("Answers.antt") or n.endswith("Invariants.antt")]
    lemmas = [n for n in proofs if n not in answers and not n.endswith("Lib.antt")]
    count = lambda some: sum(proofs[n].count("\n") for n in some)
    rows["8 proofs"] = [
        f"{len(answers)} files of answers and invariants, {count(answers)} lines",
        f"{len(lemmas)} files of lemmas, {count(lemmas)} lines",
    ]

    for kind in sorted(rows):
        print(f"{kind}: {len(rows[kind])}")
        for what in rows[kind]:
            print(f"    {what}")


main()
