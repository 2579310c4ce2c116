#!/usr/bin/env python3
"""Tries the edits crates/NAME/does-not-compile/*.edit: python3 tools/does_not_compile.py, at the top.

Such an edit is a misuse that no program can contain: with it the program must not compile. It has the lines of a
must-fail edit ('file:', and pairs of 'old:' and 'new:'), a line 'try:' with the program that stands on the file, and a
line 'says:' with the words that the compiler must say. The gate runs this first, since `rt ci` tries only edits that
compile. Nothing is proved here. Exit status 0: the program compiles and runs without edits, and each edit was refused in its words.
"""
import glob
import os
import shutil
import subprocess
import sys
import tempfile


def fields(path):
    """The edit's file, its pairs of old and new text, the program to try, and what the compiler must say."""
    with open(path, encoding="utf-8") as file:
        lines = [line.rstrip("\n").partition(": ") for line in file]
    texts = {key: [text for k, _, text in lines if k == key] for key in ("file", "old", "new", "try", "says")}
    return texts["file"][0], list(zip(texts["old"], texts["new"])), texts["try"][0], texts["says"][0]


def edited(place, pairs):
    """Whether each old text stood in the file once; the new ones stand there then."""
    with open(place, encoding="utf-8") as file:
        text = file.read()
    for old, new in pairs:
        if text.count(old) != 1:
            return False
        text = text.replace(old, new)
    with open(place, "w", encoding="utf-8") as file:
        file.write(text)
    return True


def tried(top, program):
    """The status of the program compiled and run without any proof, and what was said."""
    ran = subprocess.run(["rt", "try"], cwd=os.path.join(top, "crates", program), stdin=subprocess.DEVNULL,
                         stdout=subprocess.PIPE, stderr=subprocess.STDOUT, text=True, errors="replace")
    return ran.returncode, ran.stdout


def copy(top):
    shutil.copy("crates.txt", top)
    shutil.copytree("crates", os.path.join(top, "crates"), ignore=shutil.ignore_patterns("out", "target"))


def refused(path):
    """Why an edit was not refused in its words, or nothing."""
    crate = path.split("/")[1]
    name, pairs, program, says = fields(path)
    with tempfile.TemporaryDirectory() as top:
        copy(top)
        if not edited(os.path.join(top, "crates", crate, name), pairs):
            return "an old text does not stand in the file exactly once"
        status, said = tried(top, program)
    if status == 0:
        return "it compiles"
    return None if says in said else "the compiler says: " + said[-400:]


def main():
    paths = sorted(glob.glob("crates/*/does-not-compile/*.edit"))
    wrong = 0 if paths else 1
    for program in sorted({fields(path)[2] for path in paths}):
        with tempfile.TemporaryDirectory() as top:
            copy(top)
            status, said = tried(top, program)
        if status != 0:
            wrong += 1
            print(f"{program} does not compile as it stands: {said[-400:]}")
    for path in paths:
        why = refused(path)
        wrong += why is not None
        print(f"{path}: {'NOT REFUSED: ' + why if why else 'does not compile, as it must be'}")
    sys.exit(1 if wrong else 0)


main()
