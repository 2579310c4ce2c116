#!/usr/bin/env python3
"""Lists the places of src/ that may read like an older language: python3 docs/history/places.py [POINT ..], at the top.

The points are those of docs/history/DESIGN-PASS.md, and `kept` lists the reasons that stand beside places which stay. A line
that this prints is a place to read, not yet a place to change: the page says of each what became of it. Tests are left
out.
"""
import collections
import os
import re
import sys

CRATES = "crates"


def sources():
    for crate in sorted(os.listdir(CRATES)):
        for folder, _, files in sorted(os.walk(os.path.join(CRATES, crate, "src"))):
            for name in sorted(files):
                if name.endswith(".rt") and name not in ("tests.rt", "exercise.rt"):
                    yield crate, os.path.join(folder, name)


def code_lines():
    for crate, path in sources():
        with open(path, encoding="utf-8") as file:
            for number, line in enumerate(file, 1):
                bare = line.strip()
                if bare and not bare.startswith("//"):
                    yield crate, path, number, bare


def matching(pattern, without=None):
    for _, path, number, line in code_lines():
        if re.search(pattern, line) and not (without and re.search(without, line)):
            yield f"{path}:{number}: {line}"


# A function's head: its name, its parameters and its clauses.
def heads():
    for crate, path in sources():
        text = open(path, encoding="utf-8").read()
        for found in re.finditer(r"\bfn (\w+)(?:<[^>]*>)?\(", text):
            depth, at = 1, found.end()
            while depth:
                depth += {"(": 1, ")": -1}.get(text[at], 0)
                at += 1
            rest = re.match(r"(?:[^{;]|\n)*?(?=\n\s*(?:requires|ensures)|\s*\{\n|;)((?:\n\s*(?:requires|ensures).*(?:\n\s+\(.*)*)*)", text[at:])
            clauses = rest.group(1) if rest else ""
            yield crate, path, found.group(1), text[found.end():at - 1], clauses


def point1():
    yield from matching(r"\benum \w+")
    yield from matching(r"\b(number|kind|code|relation|layer|mark): u(8|16|32)\b|: bool\b|: Option<", r"-> bool|\bfn main")


def point2():
    where = collections.defaultdict(list)
    for crate, path, number, line in code_lines():
        found = re.match(r"(?:pub(?:\(crate\))? )?(?:const )?(fn|struct|enum|const) (\w+)", line)
        if found and found.group(2) not in ("main", "new", "fmt", "from", "try_from"):
            where[found.groups()].append(f"{path}:{number}")
    for (kind, name), places in sorted(where.items()):
        if len(places) > 1:
            yield f"{kind} {name}: " + ", ".join(places)


def point3():
    yield from matching(r"\bwhile\b(?! let)|\bfor \w+ in .*\.\.|\b\w+ [+-]= 1;")


def point4():
    yield from matching(r"\bfn (refusal|\w+_from|of_outer_call|digits|\w*put_digits|put_literal|literal_size|eq|cmp|partial_cmp|clone|to_\w+|into_\w+|as_\w+|met_at|turned)\b")


def point5():
    clauses = collections.defaultdict(set)
    groups = collections.defaultdict(set)
    for crate, path, name, parameters, text in heads():
        for clause in re.findall(r"(?:requires|ensures)(?: \w+)? \{ (.*?) \}\s*(?:\n|$)", text):
            clauses[crate, clause].add(f"{path}:{name}")
        names = [p.strip() for p in re.findall(r"\w+: [^,]+", parameters)]
        for i, one in enumerate(names):
            for other in names[i + 1:]:
                groups[crate, one, other].add(f"{path}:{name}")
    for (crate, clause), places in sorted(clauses.items()):
        if len(places) > 2:
            yield f"{crate}: {{ {clause} }}: {len(places)} functions"
    for (crate, one, other), places in sorted(groups.items()):
        if len(places) > 2:
            yield f"{crate}: ({one}, {other}): {len(places)} functions"


def point6():
    yield from matching(r"\[\w+; \w+\]|\bcount: usize,$|\bused: usize,$|\bArrayVec<", r"^const|from_be_bytes")


def point7():
    yield from matching(r"\bdyn\b|\bimpl Fn|\bfn\(|\b(flip|negate|negated): bool|^pub trait|: Mark<")


def point8():
    total = 0
    for folder, _, files in sorted(os.walk(CRATES)):
        if "Answers.antt" in files and "/proofs/" in folder and "/out/" not in folder:
            text = open(os.path.join(folder, "Answers.antt"), encoding="utf-8").read()
            answers = re.findall(r"^(?:abbrev )?(?:pub )?\S+ : goal\.", text, re.M)
            total += len(answers)
            yield f"{folder}: {len(answers)} answers, {text.count(chr(10))} lines"
    yield f"all: {total} answers"


def kept():
    for _, path in sources():
        for number, line in enumerate(open(path, encoding="utf-8"), 1):
            if line.strip().startswith("// Kept:"):
                yield f"{path}:{number}: {line.strip()}"


def main():
    for point in sys.argv[1:] or list("12345678") + ["kept"]:
        lines = list(kept() if point == "kept" else globals()["point" + point]())
        print(f"kept: {len(lines)} reasons" if point == "kept" else f"point {point}: {len(lines)} lines to read")
        for line in lines:
            print("  " + line)


main()
