#!/usr/bin/env python3
"""Spells this repository's own definitions and lemmas as the toolchain's library spells its own.

usage: python3 docs/history/respell.py [--list]     at the top of the repository, once, after the toolchain's own script

A word is in snake case (`row-end` becomes `row_end`), a fact or a theorem in upper camel case (`Reads-back` becomes
`ReadsBack`). What is declared in specs/ and proofs/ is respelled wherever it stands there, in the clauses of src/ and in
must-fail/; a theorem also in comments, README.md and docs/. A goal's name is the toolchain's and stays, as do the
functions of src/, strings, inputs and outputs. Where a new spelling would fall together with a name that is there
already, the script stops and says which; TAKEN has the spelling to use instead.
"""
import collections
import os
import re
import sys

# a new spelling that falls together with another name, and what is written in its place
TAKEN = {
    "after-mark": "place_after_mark",
    "at-end": "is_at_end",
    "body-size": "size_of_body",
    "fault-offset": "offset_of_fault",
    "row-size": "size_of_row",
    "write-lines": "lines_written",
    "Direct-worked": "DirectWorkedCases",
    "Order-worked": "OrderWorkedCases",
}
# fields of records, and functions of other crates that they never meet
APART = ("normal-form", "rounded-up")

NAME = r"[^\s(){}.;,@\"«»:=]+"
BEFORE, AFTER = r"(?<![^\s(){};,@«».:←=-])", r"(?![^\s(){}.;,@\"«»:])"
DECLARED = re.compile(rf"^(?:abbrev |unfoldable |pub )*(?:record |data )?({NAME})(?= )[^\n=]*? : |^ +pub ({NAME}) : |^ +(?:\| )?({NAME}) : ", re.M)
MADE = ("loop-", "if-", "returns", "overflow_", "call-", "invariant-", "decreases", "then-", "else-", "ensures-", "match-")


def files(*ends):
    for folder, dirs, names in os.walk("crates"):
        dirs[:] = sorted(d for d in dirs if d != "out")
        for name in sorted(names):
            if name.endswith(ends):
                yield os.path.join(folder, name)


def read(path):
    with open(path, encoding="utf-8", newline="") as f:
        return f.read()


def new_spelling(name):
    if name in TAKEN:
        return TAKEN[name]
    words = re.split(r"[-_]", name)
    if name[0].isupper():
        return words[0] + "".join(w[:1].upper() + w[1:] for w in words[1:])
    return name.replace("-", "_")


def declared():
    """Each own name that a script has to turn, with the crates that declare it."""
    found = collections.defaultdict(set)
    for path in files(".antt"):
        answers = os.path.basename(path) in ("Answers.antt", "Invariants.antt")
        text = re.sub(r"--[^\n]*", "", read(path))
        for m in DECLARED.finditer(text):
            name = m[1] or m[2] or m[3]
            rest = text[m.end():].split("\n", 1)[0]
            if answers and (rest.startswith("goal.") or m[3]):
                continue
            if "-" in name.strip("-") or (name[0].isupper() and "_" in name):
                if not name.startswith(MADE):
                    found[name].add(path.split("/")[1])
    return found


def taken(table):
    """The new spellings that meet another name of this repository."""
    own = collections.Counter(table.values())
    meets = [f"{n}: two names become it" for n, k in own.items() if k > 1]
    there = collections.defaultdict(list)
    for path in files(".antt"):
        text = re.sub(r"--[^\n]*", "", read(path))
        for token in set(re.findall(NAME, text)):
            there[token].append(path)
    for path in files(".rt"):
        for item in re.findall(r"^ *(?:pub )?(?:const |static |struct |enum |trait |fn |mod |type )(\w+)", read(path), re.M):
            there[item].append(path)
    for old, new in table.items():
        if new in there and old not in APART:
            meets.append(f"{old}: {new} stands in {', '.join(sorted(set(there[new]))[:4])}")
    return meets


def turned(text, table, comment, in_comments):
    """The text with the names turned; in comments only theorems, and nothing within a string of src/."""
    names = re.compile(BEFORE + "(" + "|".join(map(re.escape, sorted(table, key=len, reverse=True))) + ")" + AFTER)
    swap = lambda m: table[m[1]]
    out = []
    for line in text.split("\n"):
        code, mark, said = line.partition(comment)
        parts = re.split(r'("(?:[^"\\]|\\.)*")', code)
        code = "".join(p if p.startswith('"') else names.sub(swap, p) for p in parts)
        out.append(code + mark + in_comments(said))
    return "\n".join(out)


def main():
    table = {name: new_spelling(name) for name in declared()}
    meets = taken(table)
    if "--list" in sys.argv:
        print("\n".join(f"{a} {b}" for a, b in sorted(table.items())))
    if meets:
        print("\n".join(meets))
        return 1
    if "--list" in sys.argv:
        return 0
    theorems = {a: b for a, b in table.items() if a[0].isupper()}
    said = re.compile(r"(?<![\w-])(" + "|".join(map(re.escape, theorems)) + r")(?![\w-])")
    in_comments = lambda t: said.sub(lambda m: theorems[m[1]], t)
    for path in files(".antt", ".rt", ".edit"):
        text = read(path)
        new = turned(text, table, "//" if path.endswith(".rt") else "--", in_comments)
        if new != text:
            with open(path, "w", encoding="utf-8", newline="") as f:
                f.write(new)
    pages = ["README.md"] + [os.path.join("docs", p) for p in sorted(os.listdir("docs")) if p.endswith(".md")]
    for path in pages:
        text = read(path)
        new = in_comments(text)
        if new != text:
            with open(path, "w", encoding="utf-8", newline="") as f:
                f.write(new)
    return 0


if __name__ == "__main__":
    raise SystemExit(main())
