#!/usr/bin/env python3
"""Brings this repository's own names to snake case, after port.py: a definition, a lemma or a field whose name has capitals inside, as dueAfter, is spelled due_after.

usage: python3 tools/respell.py [FOLDER]      FOLDER, or here, is the top of a repository that port.py has turned

It goes by the word, in specs/, proofs/, the clauses and comments of src/, the edits of must-fail/ and the pages. Types and modules keep their capitals, and so do words in quotes; functions of src/ have no capitals.
A name of Rust beside a definition of the same name is no clash, since no clause can name a function. Where two names of antt would fall together in one file, the lemma is given the ending _lem: see CLASHES.
"""

import os
import re
import sys

# A lemma, and the definition that gets its name: the lemma is called NAME_lem then.
CLASHES = {
    "fof_pass": {"name_in": "nameIn"},
    "proposal": {"of_books": "ofBooks"},
    "fof_truth": {"only_one": "onlyOne"},
    "fof_grammar": {"same_row": "sameRow"},
}
CAMEL = re.compile(r"(?<![A-Za-z0-9_])[a-z][a-z0-9]*(?:[A-Z][A-Za-z0-9]*)+")
QUOTED = re.compile(r'("(?:[^"\\\n]|\\.)*")')
PAGES = ("README.md", "docs", "bench/README.md", "packets")


def snake(word):
    return re.sub(r"(?<=[a-z0-9])[A-Z]|(?<=[A-Z])[A-Z]", lambda m: "_" + m.group(0).lower(), word)


def turned(text):
    parts = QUOTED.split(text)
    return "".join(p if i % 2 else CAMEL.sub(lambda m: snake(m.group(0)), p) for i, p in enumerate(parts))


def unclashed(text, names):
    for lemma in names:
        text = re.sub(rf"(?<![\w'.-]){re.escape(lemma)}(?![\w'-])", lemma + "_lem", text)
    return text


def files(root):
    for folder, dirs, names in os.walk(os.path.join(root, "crates")):
        dirs[:] = sorted(d for d in dirs if d not in ("out", "data"))
        for f in sorted(names):
            if f.endswith((".antt", ".rt", ".edit")):
                yield os.path.join(folder, f), os.path.relpath(folder, os.path.join(root, "crates")).split(os.sep)[0]
    for page in PAGES:
        p = os.path.join(root, page)
        if os.path.isfile(p):
            yield p, None
        for folder, dirs, names in os.walk(p):
            for f in sorted(names):
                if f.endswith(".md") and f != "PORT.md":
                    yield os.path.join(folder, f), None


def main(argv):
    root = argv[0] if argv else "."
    changed = 0
    for path, crate in files(root):
        with open(path, encoding="utf-8") as f:
            old = f.read()
        new = old
        if path.endswith(".antt") and crate in CLASHES:
            new = unclashed(new, CLASHES[crate])
        new = turned(new)
        if new != old:
            with open(path, "w", encoding="utf-8") as f:
                f.write(new)
            changed += 1
    print(f"respell: {changed} files changed")


if __name__ == "__main__":
    main(sys.argv[1:])
