#!/usr/bin/env python3
"""Renames the repository's own operator `if◌then◌else◌` to `when◌then◌else◌`, in definitions, proofs and the edits of both.

    python3 tools/rename_if.py          at the top of the repository, once

The library has an operator of the old name, beside which rt ci lets no other stand. What is between quotes or in a comment stays.
"""
import os
import re

from respell import code, files, read

WORD = re.compile(r"(?<![\w'.·-])if(?![\w'-])")


def turned(line):
    bare, out, last = code(line, "--"), [], 0
    for m in WORD.finditer(bare):
        out += [line[last : m.start()], "when"]
        last = m.end()
    return "".join(out) + line[last:]


def main():
    for path in files(".antt"):
        t = read(path)
        new = "\n".join(map(turned, t.split("\n")))
        if new != t:
            with open(path, "w", encoding="utf-8") as f:
                f.write(new)
    for path in files(".edit"):
        t = read(path)
        if re.search(r"^file: src/", t, re.M):
            continue
        new = "\n".join(l[:5] + turned(l[5:]) if l.startswith(("old: ", "new: ")) else l for l in t.split("\n"))
        if new != t:
            with open(path, "w", encoding="utf-8") as f:
                f.write(new)


if __name__ == "__main__":
    main()
