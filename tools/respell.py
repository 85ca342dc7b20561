#!/usr/bin/env python3
"""Spells the repository's own definitions and lemmas as the library spells its own: words in snake case, a dash only between two names.

usage: python3 tools/respell.py        at the top of the repository, once, right after port.py

It reads respelled.tsv beside it: a crate (or *), an old name, a new one. It turns whole names, in specs/ and proofs/ wherever they stand, in src/ in the
clauses, the `ghost use` items and the comments' code spans, in must-fail/ as in the file that an edit changes, and in README.md, CONTRIBUTING.md
and docs/ in code spans. Functions, constants and types of src/ keep their names, and so do the names that the toolchain makes of them.
"""
import os
import re
import sys

HERE = os.path.dirname(os.path.realpath(__file__))
NAME = r"[^\s(){}.;,@\"«»`:\[\]]+"
GHOST = re.compile(r"ghost\s+use\b[^;]*;")
CLAUSE = re.compile(r"\b(?:requires|ensures)\*?\s*(?:\w+\s*)?\{")
SPAN = re.compile(r"`[^`\n]*`")


def table(crate):
    here = {}
    with open(os.path.join(HERE, "respelled.tsv"), encoding="utf-8") as f:
        rows = [line.rstrip("\n").split("\t") for line in f if not line.startswith("#")]
    for of in ("*", crate):
        here.update({old: new for where, old, new in rows if where == of})
    return here


def turned(text, names, keep_steps=False):
    """The text with each whole name of the table turned; `keep_steps` leaves what stands behind a dot and has a dash, a step that the toolchain names."""

    def one(m):
        if m[0] not in names:
            return m[0]
        if keep_steps and text[m.start() - 1 : m.start()] == "." and "-" in m[0]:
            return m[0]
        return names[m[0]]

    return re.sub(NAME, one, text)


def clauses(text):
    """The spans of clauses and of `ghost use` items."""
    for m in GHOST.finditer(text):
        yield m.span()
    for m in CLAUSE.finditer(text):
        deep, at = 1, m.end()
        while deep:
            deep += (text[at] == "{") - (text[at] == "}")
            at += 1
        yield m.end(), at


def ghost_text(text, names):
    out, done = [], 0
    for start, end in sorted(clauses(text)):
        out += [text[done:start], turned(text[start:end], names)]
        done = end
    out.append(text[done:])
    lines = "".join(out).split("\n")
    return "\n".join(spans(line, names) if line.lstrip().startswith("//") else line for line in lines)


def spans(text, names):
    return SPAN.sub(lambda m: turned(m[0], names), text)


def in_code(names):
    """The names that no word of src/ and of a page is spelled like."""
    return {old: new for old, new in names.items() if re.search(r"-|[a-z0-9][A-Z]", old)}


def edit(text, names):
    use, out, code = names, [], in_code(names)
    for line in text.split("\n"):
        if line.startswith("file:"):
            use = code if "src/" in line else names
        out.append(turned(line, use) if line.startswith(("old:", "new:")) else line)
    return "\n".join(out)


def main():
    for folder, dirs, files in os.walk("crates"):
        dirs[:] = sorted(d for d in dirs if d != "out")
        steps = folder.split(os.sep)
        if len(steps) < 2:
            continue
        names = table(steps[1])
        for f in sorted(files):
            path = os.path.join(folder, f)
            if f.endswith(".antt"):
                how = lambda t: turned(t, names, f == "Proof.antt")
            elif f.endswith(".rt"):
                how = lambda t: ghost_text(t, names)
            elif f.endswith(".edit"):
                how = lambda t: edit(t, names)
            else:
                continue
            rewrite(path, how)
    names = in_code(table("*"))
    pages = ["README.md", "CONTRIBUTING.md"] + [os.path.join(d, f) for d, _, fs in os.walk("docs") for f in fs if f.endswith(".md")]
    for path in pages:
        rewrite(path, lambda t: spans(t, names))


def rewrite(path, how):
    with open(path, encoding="utf-8", newline="") as f:
        old = f.read()
    new = how(old)
    if new != old:
        with open(path, "w", encoding="utf-8", newline="") as f:
            f.write(new)


if __name__ == "__main__":
    sys.exit(main())
