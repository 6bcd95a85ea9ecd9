#!/usr/bin/env python3
"""Brings this repository's own definitions and lemmas to today's spelling, once, after the kit's port.py.

usage: python3 tools/spelling.py            at the top of the repository; files are rewritten in place
       python3 tools/spelling.py --names    prints each old and new name and changes nothing

Every name that a file of specs/ or proofs/ declares, or gives by `as`, and that has a dash gets snake case, a type camel case.
Names that Rattle makes (answers to goals, invariants) keep their dashes, and so does the code of src/: there only
clauses, ghost items and ghost use lines are turned. In pages the names in backticks are turned.
It stops, with nothing changed, where a new name stands already in a file of specs/ or proofs/. It does not look for one in
src/, and a name of the library that is spelled as one of this repository's is turned too, and has to be turned back.
"""

import glob
import re
import sys

# `first_of` is a tactic today, and its partner follows it; a lemma on an operator gets words
SPECIAL = {
    "first_of": "first_register",
    "second-of": "second_register",
    "*ℤ-assoc": "mul_ℤ_assoc",
    "Empty-outside": "EmptyOutside",
    "Without-T": "WithoutT",
    "Zero-if-empty": "ZeroIfEmpty",
}
BUILT = ("out", "target")

NAME = r"[^\s(){}\[\],;.«»⌜⌝\"`]+"
DECLARED = re.compile(
    r"^\s*(?:(?:abbrev|unfoldable|pub|data|record) )*(" + NAME + r")\s*"
    r"(?:\([^)]*\)\s*|\{[^}]*\}\s*)*:(?: (.*))?$"
)
SKIPPED = re.compile(r"^\s*(?:--|mod |pub mod |unfolding )")
IMPORT = re.compile(r"^\s*(?:pub )?use ")


def read(path):
    with open(path, encoding="utf-8") as file:
        return file.read()


def files(*patterns):
    found = [p for q in patterns for p in glob.glob(q, recursive=True)]
    return sorted(p for p in found if not set(p.split("/")) & set(BUILT))


def declared(antt):
    """The names that the files declare, and for each whether Rattle made it."""
    names = {}
    for path in antt:
        for line in read(path).splitlines():
            if SKIPPED.match(line):
                continue
            if IMPORT.match(line):
                names.update({n: False for n in re.findall(r" as (" + NAME + r")(?=[,}])", line) if "-" in n})
                continue
            match = DECLARED.match(line)
            if match:
                made = (match.group(2) or "").startswith("goal.")
                names[match.group(1)] = names.get(match.group(1), True) and made
    return names


def new_name(name):
    return SPECIAL.get(name) or name.replace("-", "_")


def renaming(antt):
    names = declared(antt)
    own = {n for n, made in names.items() if not made and ("-" in n or n in SPECIAL)}
    table = {n: new_name(n) for n in sorted(own)}
    words = set(re.findall(NAME, "\n".join(read(p) for p in antt)))
    for old, new in table.items():
        if new in words:
            sys.exit(f"spelling: {old} would fall together with {new}")
    if len(set(table.values())) != len(table):
        sys.exit("spelling: two names would fall together")
    return table


def turned(text, table):
    return re.sub(NAME, lambda match: table.get(match.group(0), match.group(0)), text)


def turned_source(text, table):
    """Clauses, ghost items and their imports; a clause may go over several lines."""
    lines, depth = [], 0
    for line in text.splitlines(keepends=True):
        if depth > 0 or re.match(r"\s*(?:pub )?(?:ghost|requires|ensures)\b|.*#\[tactic", line):
            line = turned(line, table)
            depth += line.count("{") - line.count("}")
        lines.append(line)
    return "".join(lines)


def turned_page(text, table):
    """The names in backticks; port.py had turned some of the same group in the files alone."""
    return re.sub(r"`[^`\n]+`", lambda match: turned(match.group(0), table), text)


def main():
    antt = files("crates/*/specs/**/*.antt", "crates/*/proofs/**/*.antt")
    table = renaming(antt)
    if sys.argv[1:] == ["--names"]:
        for old, new in table.items():
            print(f"{old}\t{new}")
        return
    pages = {n.replace("_", "-"): n for n in declared(antt) if "_" in n and n not in table} | table
    turns = [(antt, turned), (files("crates/*/src/**/*.rt"), turned_source), (files("README.md", "docs/*.md"), turned_page)]
    for paths, turn in turns:
        for path in paths:
            text = read(path)
            new = turn(text, pages if turn is turned_page else table)
            if new != text:
                with open(path, "w", encoding="utf-8") as file:
                    file.write(new)
    print(f"spelling: {len(table)} names turned")


main()
