#!/usr/bin/env python3
"""Spells the repository's own definitions and lemmas in snake case, as today's Rattle does.

usage: tools/snake_names.py        at the top of the repository, once, after the port's own script

A word of specs/ or proofs/ that begins with a small letter and has a capital inside, as `roomAfter`, becomes `room_after`, wherever it
stands: in specs/, proofs/, clauses, comments, must-fail edits and pages. A lemma that would then have its definition's name gets `_lem`.
Types, modules, functions of src/, strings, inputs and outputs keep their names. A second run changes nothing.
"""

import glob
import re

TOKEN = re.compile(r"--[^\n]*|\"(?:[^\"\\]|\\.)*\"|[^\s(){}.;,@\"«»\[\]\\◌]+")
HUMP = re.compile(r"(?:^|[-_])[a-z][a-z0-9_]*[A-Z]")
# lemmas that would fall together with a definition of their crate
LEMMAS = ["as_before", "by_rows", "read_number", "same_bytes"]
# a word of the library's older spelling, and one that is a name of the library's
OTHERS = {"getD-from": "get_or-from", "not_T": "not_T"}


def files(*patterns):
    for pattern in patterns:
        for path in sorted(glob.glob(pattern, recursive=True)):
            if "/out/" not in path:
                yield path


def read(path):
    with open(path, encoding="utf-8", newline="") as it:
        return it.read()


def snake(word):
    return re.sub(r"(?<=[a-z0-9])[A-Z]", lambda it: "_" + it[0].lower(), word)


def main():
    code = list(files("crates/*/specs/**/*.antt", "crates/*/proofs/**/*.antt", "crates/*/src/**/*.rt"))
    found = set()
    for path in code:
        text = read(path)
        if path.endswith(".rt"):
            text = re.sub(r"//[^\n]*", "", text)
        for it in TOKEN.finditer(text):
            if not it[0].startswith(("--", '"')) and HUMP.search(it[0]):
                found.add(it[0])
    new = {word: OTHERS.get(word, snake(word)) for word in found}
    if not new.keys() - OTHERS.keys():
        return
    new.update((word, word + "_lem") for word in LEMMAS)
    one = re.compile(r"(?<![\w'′-])(" + "|".join(sorted(map(re.escape, new), key=len, reverse=True)) + r")(?![\w'′-])")
    pages = files("*.md", "docs/**/*.md", "crates/*/must-fail/*.edit")
    for path in [*code, *pages]:
        text = read(path)
        turned = one.sub(lambda it: new[it[1]], text)
        if turned != text:
            with open(path, "w", encoding="utf-8", newline="") as it:
                it.write(turned)
            print(path)


if __name__ == "__main__":
    main()
