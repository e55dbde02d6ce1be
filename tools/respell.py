#!/usr/bin/env python3
"""Respells this repository's own definitions and lemmas: words in snake case, as Rattle's library spells them.

usage: tools/respell.py            at the top of the repository, once, right after port.py

tools/respelled.tsv has a row for each name: the old one, the new one and, where a name turns in some files alone, the
beginning of their path below crates/. A name that would have fallen together with another has `_lem` after it.
A name that a function's Proof.antt alone declares turns there, unless the file has the new name already.
Rust names, exported names and strings keep their spelling.
"""

import os
import re
import sys

HERE = os.path.dirname(os.path.realpath(__file__))
ROOT = os.path.dirname(HERE)
WORD = re.compile(r'[^\s(){}.;,@"«»]+')
PROSE = re.compile(r"[A-Za-z][\w'-]*")
QUIET = re.compile(r'"(?:[^"\\\n]|\\.)*"|(?<![^\s(){}.;,@"«»])(?:--|//)[^\n]*')
SPAN = re.compile(r"`[^`\n]+`")
LOCAL = re.compile(r"^ *(?:abbrev |pub )*([a-z][^\s(){}.;,@\"«»]*)(?: (?:\([^)]*\)|\{[^}]*\}|[^\s:(){}]+))* :(?= |$)(.*)$", re.M)


def snake(name):
    return re.sub(r"(?<=[a-z0-9])([A-Z])", lambda m: "_" + m[1].lower(), name).replace("-", "_")


def rows():
    out = []
    with open(os.path.join(HERE, "respelled.tsv"), encoding="utf-8") as f:
        for line in f:
            old, new, *where = line.rstrip("\n").split("\t")
            out.append((old, new, where[0] if where else ""))
    return out


def turn_word(table, word):
    if word in table:
        return table[word]
    bare = word.rstrip("'′⁻¹₀₁₂₃")
    return table[bare] + word[len(bare):] if bare in table else word


def turn(text, table):
    """The text of a .antt, .rt or .edit file, each name turned; in comments a dashed word only where the code has it."""
    in_code = set(WORD.findall(QUIET.sub(" ", text)))
    out, last = [], 0
    for m in QUIET.finditer(text):
        out.append(WORD.sub(lambda w: turn_word(table, w[0]), text[last : m.start()]))
        last = m.end()
        if m[0][0] == '"':
            out.append(m[0])
        else:
            out.append(PROSE.sub(lambda w: turn_word(table, w[0]) if w[0] in in_code or re.search("[a-z][A-Z]", w[0]) else w[0], m[0]))
    out.append(WORD.sub(lambda w: turn_word(table, w[0]), text[last:]))
    return "".join(out)


def locals_of(text, table):
    """The names that a function's proof file alone declares and that are not named by the check."""
    words = set(WORD.findall(QUIET.sub(" ", text)))
    words |= {turn_word(table, w) for w in words}
    out = {}
    for m in LOCAL.finditer(text):
        name, rest = m[1], m[2]
        if name in table or name.startswith(("invariant-", "decreases-")) or re.match(r" (?:\{M : Type 1\} → statement|tie\.Need-|tie\.(?:invariant|decreases))", rest):
            continue
        new = snake(name)
        if new != name and new not in words and new not in out.values():
            out[name] = new
    return out


def main():
    table = rows()
    everywhere = {old: new for old, new, where in table if not where}
    for folder, dirs, files in os.walk(os.path.join(ROOT, "crates")):
        dirs[:] = sorted(d for d in dirs if d != "out")
        for name in sorted(files):
            if not name.endswith((".antt", ".rt", ".edit")):
                continue
            path = os.path.join(folder, name)
            with open(path, encoding="utf-8") as f:
                text = f.read()
            below = os.path.relpath(path, os.path.join(ROOT, "crates"))
            mine = dict(everywhere)
            mine.update({old: new for old, new, where in table if where and below.startswith(where)})
            if name == "Proof.antt":
                mine.update(locals_of(text, mine))
            new = turn(text, mine)
            if new != text:
                with open(path, "w", encoding="utf-8") as f:
                    f.write(new)
    for page in ["README.md"] + [os.path.join("docs", p) for p in sorted(os.listdir(os.path.join(ROOT, "docs")))]:
        if page.endswith(".md") and os.path.basename(page) != "PORT.md":
            path = os.path.join(ROOT, page)
            with open(path, encoding="utf-8") as f:
                text = f.read()
            new = SPAN.sub(lambda m: PROSE.sub(lambda w: turn_word(everywhere, w[0]), m[0]), text)
            if new != text:
                with open(path, "w", encoding="utf-8") as f:
                    f.write(new)


if __name__ == "__main__":
    sys.exit(main())
