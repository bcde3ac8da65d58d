#!/usr/bin/env python3
"""Brings the repository's own definitions, lemmas and variables to snake case: `length-of` becomes `length_of`.

    python3 tools/respell.py          at the top of the repository, once

What the library or the check names keeps its hyphens. Definitions and lemma files turn whole; a proof of a function turns only the
names that it takes from them, since its other names are the check's. In pages and comments only what stands between backticks turns.
The must-fail edits turn with the text that they edit; those whose old text then stands nowhere, or twice, are listed.
It stops, with nothing written, where two names would fall together.
"""
import collections
import os
import re
import sys

# names whose snake case is another's in the same file: a field's, and a word of the library
ASIDE = {"after-sign": "behind_a_sign", "before-unit": "before_a_unit", "bit-or": "bits_or"}
NAME = re.compile(r"(?<![\w'.·-])[^\W\d][\w'-]*|(?<=\.)[^\W\d][\w'-]*")
DECLARED = re.compile(r"^(?:(?:pub|abbrev|unfoldable) )*(?:record |data |ruleset )?([^\s:(){}]+)(?= |$)")
IMPORT = re.compile(r"^\s*(?:ghost |pub )*use ([\w.'·+-]+?)(?:\.\{([^}]*)\})?(?: as [\w-]+)?;?$", re.M)
LIBRARY = ("Rattle.std", "Rattle·std", "mathlib", "native", "Prim", "lib.", "borrow", "logic", "Rattle.core", "Rattle.io", "Rattle.libc")


def files(kind):
    for folder, dirs, names in os.walk("crates"):
        dirs[:] = sorted(d for d in dirs if d not in ("out", "target"))
        for name in sorted(names):
            if name.endswith(kind):
                yield os.path.join(folder, name)


def read(path):
    with open(path, encoding="utf-8") as f:
        return f.read()


def is_laid_open(path):
    """Definitions and lemmas, not the proof of one function."""
    return "/specs/" in path or re.match(r"crates/\w+/proofs/\w+\.antt$", path)


def code(line, comment):
    """The line with what stands in strings and comments blanked out."""
    line = re.sub(r'"(?:[^"\\]|\\.)*"', lambda m: " " * len(m.group()), line)
    at = re.search(r"(?:^|\s)" + comment, line)
    return line[: at.start()] + " " * (len(line) - at.start()) if at else line


def turn_line(line, names, comment, fields=True):
    bare = code(line, comment)
    out, last = [], 0
    for m in NAME.finditer(bare):
        # behind a point of a step's record stands what the check has named
        of_a_step = not fields and re.search(r"(?<![\w'.-])[a-z][\w'-]*(?:\.[\w'-]+)*\.$", bare[: m.start()])
        if m.group() in names and not of_a_step:
            out += [line[last : m.start()], names[m.group()]]
            last = m.end()
    line = "".join(out) + line[last:]
    at = re.search(r"(?:^|\s)" + comment, code_of_comment(line, comment))
    return line[: at.start()] + turn_prose(line[at.start() :], names) if at else line


def code_of_comment(line, comment):
    return re.sub(r'"(?:[^"\\]|\\.)*"', lambda m: " " * len(m.group()), line)


def turn_prose(text, names):
    """Names between backticks, one at a time or several with commas."""
    def words(m):
        return NAME.sub(lambda n: names.get(n.group(), n.group()), m.group())

    return re.sub(r"`[^`\n]*`", words, text)


def imported(texts):
    found = set()
    for t in texts.values():
        for m in IMPORT.finditer(t):
            if m.group(1).startswith(LIBRARY):
                last = m.group(1).split(".")[-1]
                found.add(last)
                for n in (m.group(2) or "").split(","):
                    found.update(n.split(" as ")[0].split())
        for m in re.finditer(r"(?:Rattle\.std|mathlib|native|Prim|lib)(?:\.[\w'-]+)+", t):
            found.add(m.group().split(".")[-1])
    return found


def own_names(texts):
    """Hyphenated names of definitions and lemmas, and of what is bound in them."""
    library = imported(texts)
    names, everywhere = set(), collections.defaultdict(set)
    for path, t in texts.items():
        for line in t.splitlines():
            for m in NAME.finditer(code(line, "--" if path.endswith(".antt") else "//")):
                everywhere[m.group()].add(path)
                if "-" in m.group() and path.endswith(".antt") and is_laid_open(path) and m.group() not in library:
                    names.add(m.group())
    return names, everywhere, library


def fallen_together(names, everywhere, texts):
    turned = collections.defaultdict(set)
    for old, new in names.items():
        turned[new].add(old)
        for path in everywhere.get(new, ()):
            if path in everywhere[old] and path.endswith(".antt") and is_laid_open(path) and not os.path.isdir(os.path.join("crates", new)):
                yield f"{old} and {new} both stand in {path}"
    for new, olds in turned.items():
        if len(olds) > 1:
            yield f"{' and '.join(sorted(olds))} both become {new}"


def turn_text(text, names, known, lent):
    """What an edit takes away or brings, in today's spelling; lent says how a clause reads what was lent as the call begins."""
    text = re.sub(r"Rattle·(\w+)·specs\.specs", r"Rattle.\1.specs", text)
    text = re.sub(r"Rattle·(\w+)", r"Rattle.\1", text)
    for sign in "⌜⌝":
        text = text.replace(f" {sign}", "").replace(f"{sign} ", "")
    text = re.sub(r"λ r\. ", "", text) if "ensures" in text else text
    text = re.sub(r"(?<![\w.'-])r(?= ≡| \.)", "result", text) if "now (" in text else text
    text = re.sub(r"\(?now \((\w+) \.entry\)\)?(?<=\))", lambda m: m.group(1) + lent + ")" * (m.group().count(")") - m.group().count("(")), text)
    text = re.sub(r"\(?now \((\w+) \.exit\)\)?(?<=\))", lambda m: m.group(1) + ".new" + ")" * (m.group().count(")") - m.group().count("(")), text)
    for _ in range(4):
        text = re.sub(r"(?<![\w)'-])([^\W\d][\w'-]*(?:\.[\w'-]+)*) \.«?([^\W\d][\w'-]*)»?", r"\1.\2", text)
        text = re.sub(r"\(([\w'-]+(?:\.[\w'-]+)+)\)", r"\1", text)
        text = re.sub(r"\) \.«?([^\W\d][\w'-]*)»?", r").\1", text)
    text = re.sub(r"\bmathlib\.Core\.Bool\.\{", "Rattle.std.specs.Prelude.{", text)
    text = re.sub(r"(?<=[{ ,])_([^\s\w,{}]+)_(?=[,}])", r"◌\1◌", text)
    text = turn_line(text, names, "--")
    return re.sub(r"(?<![\w'.·-])[^\W\d][\w'-]*-[\w'-]+", lambda m: m.group().replace("-", "_") if m.group().replace("-", "_") in known else m.group(), text)


def turn_edit(text, names, known, lent):
    """The edit in today's spelling: fields tight, operators and paths as now, and the repository's own names."""
    out = []
    for line in text.splitlines():
        if line.startswith(("old: ", "new: ")):
            out.append(line[:5] + turn_text(line[5:], names, known, lent))
        else:
            out.append(turn_prose(line, names))
    return "\n".join(out) + "\n"


def does_not_fit(edit, crate):
    """Why the edit is no edit of the text as it stands, if it is none."""
    where, old, texts = None, None, {}
    for line in edit.splitlines():
        if line.startswith("file: "):
            where = os.path.join(crate, line[6:].strip())
            if where not in texts:
                if not os.path.exists(where):
                    return f"there is no {where}"
                texts[where] = read(where)
        elif line.startswith("old: "):
            old = line[5:]
        elif line.startswith("new: "):
            if texts[where].count(old) != 1:
                return f"stands {texts[where].count(old)} times: {old}"
            texts[where] = texts[where].replace(old, line[5:])
    return None


def main():
    texts = {p: read(p) for p in files((".antt", ".rt"))}
    found, everywhere, _ = own_names(texts)
    names = {n: ASIDE.get(n, n.replace("-", "_")) for n in found}
    wrong = sorted(set(fallen_together(names, everywhere, texts)))
    if wrong:
        print("\n".join(wrong))
        return 1
    for path, t in texts.items():
        comment = "--" if path.endswith(".antt") else "//"
        new = "\n".join(turn_line(line, names, comment, not path.endswith(".antt") or bool(is_laid_open(path))) for line in t.split("\n"))
        if new != t:
            with open(path, "w", encoding="utf-8") as f:
                f.write(new)
    for folder, dirs, found_names in os.walk("."):
        dirs[:] = sorted(d for d in dirs if d not in (".git", "target", "out", "crates"))
        for name in sorted(found_names):
            if name.endswith(".md"):
                path = os.path.join(folder, name)
                t = read(path)
                new = turn_prose(t, names)
                if new != t:
                    with open(path, "w", encoding="utf-8") as f:
                        f.write(new)
    known = set()
    for path in texts:
        known.update(NAME.findall(read(path)))
    for path in files(".edit"):
        t = read(path)
        crate = os.path.dirname(os.path.dirname(path))
        turned = [turn_edit(t, names, known, lent) for lent in (".now", ".old")]
        fitting = [e for e in turned if not does_not_fit(e, crate)]
        with open(path, "w", encoding="utf-8") as f:
            f.write((fitting or turned)[0])
        if not fitting:
            print(f"{path}: {does_not_fit(turned[0], crate)}")
    return 0


if __name__ == "__main__":
    sys.exit(main())
