#!/usr/bin/env python3
"""Respells this repository's own definitions and lemmas: words in snake case, a dash only between two names.

usage: python3 tools/respell.py        once, at the top of the repository, after the kit's own port script

It collects the names that specs/ and proofs/ define, respells them in specs/, proofs/, must-fail/, docs/, README.md and
in the clauses of src/, and stops, writing nothing, where two names would fall together. Functions, types and variables of
src/, types and facts (which begin with a capital) and the names that the checker makes keep their spelling.
"""
import glob
import os
import re
import sys

# Words of the library that a lemma's name may be joined to by a dash.
LIBRARY = {"append", "drop", "take", "length", "map", "set", "cons", "nil", "push", "cond", "++"}

# Lemmas that would have the name of the definition that they speak of, and definitions that would have that of a field.
CHOSEN = {
    "firstTime": "first_time_of",
    "lastTime": "last_time_of",
    "first-time": "first_time_lem",
    "last-time": "last_time_lem",
    "line-of": "line_of_lem",
    "and-sheet": "and_sheet_lem",
    "else-sheet": "else_sheet_lem",
    "once-sheet": "once_sheet_lem",
    "sheet-from": "sheet_from_lem",
    "sheet-of": "sheet_of_lem",
    "verdict-at": "verdict_at_lem",
    "verdicts-of": "verdicts_of_lem",
    "if-pending": "if_pending_lem",
    "more-binders": "more_binders_lem",
    "at_first": "at_first_lem",
    "seen_as": "seen_as_lem",
    "some_left": "some_left_lem",
    "takeAt": "takes_at",
}

DEFINES = re.compile(
    r"^\s*(?:abbrev pub |unfoldable pub |pub |abbrev |unfoldable )?([^\s(){}\[\],;.:]+) : "
)
TOKEN = re.compile(r"[^\s(){}\[\],;.:\"`«»⌜⌝|]+")
CAMEL = re.compile(r"(?<![\w'])[a-z][a-z0-9]*(?:[A-Z][a-zA-Z0-9]*)+'?(?![\w-])")


def read(path):
    with open(path, encoding="utf-8") as f:
        return f.read()


def snake(word):
    return re.sub(r"(?<=[a-z0-9])([A-Z])", lambda m: "_" + m.group(1).lower(), word)


def defined(paths):
    """The names that the files define, but for answers, which the checker names."""
    names = set()
    for path in paths:
        for line in read(path).splitlines():
            m = DEFINES.match(line)
            if m and "goal." not in line and not line.strip().startswith(("let ", "--")):
                names.add(m.group(1))
    return names


def respelled(name, words, in_specs):
    parts = [snake(p) if re.match(r"[a-z]", p) else p for p in name.split("-")]
    new = parts[0]
    for left, right in zip(parts, parts[1:]):
        joins = not in_specs and left in words and right in words
        new += ("-" if joins or not left or not right else "_") + right
    return new


def main():
    specs = glob.glob("crates/*/specs/**/*.antt", recursive=True)
    proofs = glob.glob("crates/*/proofs/**/*.antt", recursive=True)
    in_specs, in_proofs = defined(specs), defined(proofs)
    words = {snake(n) for n in in_specs if re.match(r"[a-z]", n) and "-" not in n} | LIBRARY
    turned = dict(CHOSEN)
    for name in sorted((in_specs | in_proofs) - set(CHOSEN)):
        if not re.match(r"[a-z]", name) or not re.search(r"[A-Z]|-", name):
            if not re.match(r"[A-Z]\w*-", name):
                continue
        new = respelled(name, words, name in in_specs)
        if new != name:
            turned[name] = new
    taken = set()
    for path in specs + proofs:
        text = read(path)
        taken |= {m.group(0) for m in TOKEN.finditer(text) if text[m.start() - 1 : m.start()] != "."}
    clashes = sorted(f"{a} -> {b}" for a, b in turned.items() if b in taken - set(turned))
    twice = sorted({b for b in turned.values() if list(turned.values()).count(b) > 1})
    if clashes or twice:
        print("names that would fall together:", *clashes, *twice, sep="\n  ")
        return 1

    def one(m):
        token = m.group(0)
        if token not in turned:
            return token
        behind_dot = m.start() > 0 and m.string[m.start() - 1] == "."
        return token if "-" in token and behind_dot else turned[token]

    for path in specs + proofs + glob.glob("crates/*/must-fail/*.edit"):
        text = read(path)
        new = TOKEN.sub(one, text)
        if new != text:
            with open(path, "w", encoding="utf-8") as f:
                f.write(new)
    plain = glob.glob("crates/*/src/**/*.rt", recursive=True) + glob.glob("docs/*.md") + ["README.md"]
    for path in plain:
        text = read(path)
        new = CAMEL.sub(lambda m: turned.get(m.group(0), m.group(0)), text)
        if new != text:
            with open(path, "w", encoding="utf-8") as f:
                f.write(new)
    print(f"{len(turned)} names respelled")
    return 0


if __name__ == "__main__":
    os.chdir(os.path.join(os.path.dirname(os.path.abspath(__file__)), ".."))
    sys.exit(main())
