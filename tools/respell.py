#!/usr/bin/env python3
"""Brings the repository's own definitions and lemmas to today's spelling. Run once, right after the kit's port.py.

usage: python3 tools/respell.py [--list]

Functions, fields of records and lemmas are in snake case, types in upper camel case. A dash stays in a lemma's name
where it joins the names of two functions, as in 'product-append'; before a plain word it becomes '_'.
Only names that a file of specs/ or proofs/ declares are turned: names of goals, of the source and of libraries are not,
nor are strings. In comments only names with a capital inside are turned, since a word with a dash may be plain English.
A lemma that would then have the name of a definition gets '_lem'.
--list prints old and new names and changes nothing. Two old names that would fall together stop it.
"""

import os
import re
import sys

TOP = os.path.dirname(os.path.dirname(os.path.abspath(__file__)))
WORD = r"[^\s:()\[\]{}λ,;.◌«»]+"
DECLARED = re.compile(rf"^(\s*)((?:unfoldable |abbrev |pub )*)({WORD})(?:\s+\([^)]*\)|\s+\{{[^}}]*\}})*\s+:\s")
TYPE = re.compile(rf"^(\s*)(?:pub |abbrev )*(?:record|data)\s+({WORD})")
# functions of std that a lemma's name is joined from
STD = {"append", "length", "map", "take", "drop", "or", "and"}
# a lemma on T, which begins like a type; three texts of examples, whose names would be those of the facts about them
CHOSEN = {"T-all": "T-all", "ladderBroken": "ladder_broken_text", "ladderKept": "ladder_kept_text", "markBroken": "mark_broken_text"}


def files():
    for folder, dirs, names in os.walk(os.path.join(TOP, "crates")):
        dirs[:] = sorted(d for d in dirs if d != "out")
        for n in sorted(names):
            if n.endswith((".rt", ".antt")):
                yield os.path.join(folder, n)


def declared():
    """The names that specs/ and proofs/ declare, each with what it is: 'field', 'type', 'definition' or 'lemma', and 'specs' where it stands there."""
    found = {}
    for p in files():
        if not p.endswith(".antt"):
            continue
        record = None
        place = {"specs"} if "/specs/" in p else set()
        for line in open(p, encoding="utf-8"):
            if not line.strip() or line.lstrip().startswith("--"):
                continue
            indent = len(line) - len(line.lstrip())
            if record is not None and indent <= record:
                record = None
            t = TYPE.match(line)
            if t:
                found.setdefault(t.group(2), set()).update({"type"} | place)
                record = indent
                continue
            d = DECLARED.match(line)
            if d and ": goal." not in line:
                kind = "field" if record is not None else "definition" if "abbrev" in d.group(2) else "lemma"
                found.setdefault(d.group(3), set()).update({kind} | place)
    return found


def snake(name):
    return re.sub(r"(?<=[a-z0-9])([A-Z])", lambda m: "_" + m.group(1).lower(), name)


def respelled(name, kinds, functions):
    if name in CHOSEN:
        return CHOSEN[name]
    parts = name.split("-")
    if name[0].isupper():
        return parts[0] + "".join(p[:1].upper() + p[1:] for p in parts[1:])
    parts = [snake(p) for p in parts]
    if kinds & {"field", "definition"} or not all(p in functions for p in parts):
        return "_".join(parts)
    return "-".join(parts)


def mapping():
    found = declared()
    functions = STD | {snake(n) for n in found if "-" not in n}
    turned = {n: respelled(n, k, functions) for n, k in found.items() if re.fullmatch(r"[\w'-]+", n)}
    # a lemma that would have the name of a definition of specs/ gets '_lem'
    defined = {turned[n] for n in turned if "specs" in found[n]}
    for n in turned:
        if "specs" not in found[n] and "field" not in found[n] and turned[n] in defined and turned[n] != n:
            turned[n] += "_lem"
    fallen = [f"'{o}' and '{p}' would both be '{n}'" for o, n in turned.items() for p, m in turned.items() if o < p and m == n]
    if fallen:
        sys.exit("\n".join(fallen))
    return {o: n for o, n in turned.items() if o != n}


def turn_line(line, names, comment):
    """The line with the names turned: in code, in clauses, and in comments those with a capital inside."""

    def word(m):
        return names.get(m.group(0), m.group(0))

    pattern = re.compile(r"[A-Za-z0-9_'][\w'-]*")
    cut = line.find(comment)
    code, rest = (line, "") if cut < 0 else (line[:cut], line[cut:])
    pieces = re.split(r'("(?:[^"\\]|\\.)*")', code)
    code = "".join(p if p.startswith('"') else pattern.sub(word, p) for p in pieces)
    rest = pattern.sub(lambda m: word(m) if re.search(r"[a-z][A-Z]", m.group(0)) else m.group(0), rest)
    return code + rest


def main(argv):
    names = mapping()
    if argv == ["--list"]:
        for old in sorted(names):
            print(f"{old} -> {names[old]}")
        return
    for p in list(files()):
        comment = "//" if p.endswith(".rt") else "--"
        with open(p, encoding="utf-8") as f:
            old = f.read()
        new = "".join(turn_line(l, names, comment) for l in old.splitlines(keepends=True))
        if new != old:
            with open(p, "w", encoding="utf-8") as f:
                f.write(new)


main(sys.argv[1:])
