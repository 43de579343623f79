#!/usr/bin/env python3
"""Brings the names of definitions and lemmas to the spelling of today's Rattle: words in snake case, a dash only between two names.

usage: python3 tools/respell.py [FOLDER]    in FOLDER (this folder, if none is given), once, after port.py

tools/names.txt has a line a name: the old name, the new one, and `field` where it names a field of a record too. Names of functions in src/,
exported names, strings, inputs and outputs stay. In code it replaces whole names, in comments, pages and edits those that stand there as code.
"""

import os
import re
import sys

HERE = os.path.dirname(os.path.realpath(__file__))
NAMES, FIELDS = {}, set()
with open(os.path.join(HERE, "names.txt"), encoding="utf-8") as f:
    for line in f:
        old, new, *field = line.split()
        NAMES[old] = new
        if field:
            FIELDS.add(old)

WORD = r"[A-Za-z_◌ℕ][A-Za-z_◌ℕ0-9'·≡≢≤<≥+*/∷⊤⊥₀-₉-]*"
PATH = re.compile(rf"Rattle(?:\.{WORD})+|(?<![\w'·-])(\.?)({WORD})")
CAMEL = re.compile(r"[a-z][a-z0-9_]*[A-Z]")
GHOST = re.compile(r"^\s*(pub )?ghost\b|^\s*(requires|ensures|forget|claims)\b")


def turned(text, kebab):
    """The text with each name in its new spelling; names without a capital only where kebab is true."""

    def one(m):
        if m.group(2) is None:
            return m.group(0)
        dot, word = m.group(1), m.group(2)
        if word not in NAMES or not (CAMEL.match(word) or kebab):
            return m.group(0)
        before = m.string[: m.start()]
        if dot and not CAMEL.match(word) and word not in FIELDS and not re.search(r"(^|[^\w.])[A-Z]\w*$", before):
            return m.group(0)
        return dot + NAMES[word]

    return PATH.sub(one, text)


def in_quotes(text):
    return re.sub(r"`[^`\n]+`", lambda m: turned(m.group(0), True), text)


def antt(text):
    out = []
    for line in text.split("\n"):
        code, mark, comment = line.partition("--") if re.match(r"^\s*--", line) else (line, "", "")
        if not mark and (m := re.search(r"(^|\s)--(\s|$)", line)):
            code, mark, comment = line[: m.start()] + m.group(1), "--", line[m.start() + len(m.group(1)) + 2 :]
        out.append(turned(code, True) + mark + turned(in_quotes(comment), False))
    return "\n".join(out)


def rattle(text):
    out, depth, ghost = [], 0, False
    for line in text.split("\n"):
        code, mark, comment = line, "", ""
        if m := re.search(r'(^|\s)//', line):
            code, mark, comment = line[: m.start()] + m.group(1), "//", line[m.start() + len(m.group(1)) + 2 :]
        if '"' in code and not GHOST.match(code):
            parts = re.split(r'("(?:[^"\\]|\\.)*")', code)
            code = "".join(p if p.startswith('"') else turned(p, False) for p in parts)
        else:
            if not ghost and GHOST.match(code):
                ghost, depth = True, 0
            code = turned(code, ghost)
            if ghost:
                depth += code.count("{") - code.count("}")
                if depth <= 0:
                    ghost = False
        out.append(code + mark + turned(in_quotes(comment), False))
    return "\n".join(out)


def edit(text):
    return "\n".join(turned(line, True) if line.startswith(("old:", "new:")) else line for line in text.split("\n"))


def main():
    top = os.path.realpath(sys.argv[1] if len(sys.argv) > 1 else ".")
    for folder, dirs, files in os.walk(top):
        dirs[:] = [d for d in dirs if d not in (".git", "out", "target")]
        for name in files:
            path = os.path.join(folder, name)
            inside = os.path.relpath(path, top).split(os.sep)[0]
            kind = os.path.splitext(name)[1]
            if inside == "crates" and kind == ".antt":
                turn = antt
            elif inside == "crates" and kind == ".rt":
                turn = rattle
            elif inside == "crates" and kind == ".edit":
                turn = edit
            elif (inside == "docs" or folder == top) and kind == ".md":
                turn = in_quotes
            else:
                continue
            with open(path, encoding="utf-8", newline="") as f:
                text = f.read()
            new = turn(text)
            if new != text:
                with open(path, "w", encoding="utf-8", newline="") as f:
                    f.write(new)


main()
