#!/usr/bin/env python3
"""Brings the names of this repository's own definitions and lemmas to the spelling of the newer Rattle.

usage: tools/respell.py        at the top of the repository, once, after port.py

Words are in snake case, types and facts in upper camel case. tools/respelled.tsv has each old name beside its new one. A lemma
that would have the name of a definition ends in _lem. Names are turned in .antt files, in the clauses and `ghost use` lines of .rt
files, in the texts of must-fail edits, and between backquotes in comments and documents. Strings, the names of functions and
exported names stay as they are.
"""

import os
import re
import sys

TABLE = os.path.join(os.path.dirname(os.path.realpath(__file__)), "respelled.tsv")
# A name: no letter, digit, prime, dash or middle dot stands on either side of it.
TOKEN = re.compile(r"(?<![\w'⊖↔→≡≢·′-])[^\W\d_⊖][\w⊖↔→≡≢′-]*['′]*(?![\w'⊖↔→≡≢′-])|(?<![\w'⊖↔→≡≢·′-])⊖-[\w-]+")
STRING = re.compile(r'b?"(?:[^"\\]|\\.)*"')
QUOTED = re.compile(r"`[^`\n]*`")


def table():
    names = {}
    with open(TABLE, encoding="utf-8") as lines:
        for line in lines:
            old, new = line.rstrip("\n").split("\t")
            names[old] = new
    return names


NAMES = table()


def turned(text):
    return TOKEN.sub(lambda m: NAMES.get(m.group(), m.group()), text)


def quoted(text):
    return QUOTED.sub(lambda m: turned(m.group()), text)


def proof(line):
    """A line of an .antt file: its comment only between backquotes."""
    at = line.find("--")
    if at < 0:
        return turned(line)
    return turned(line[:at]) + quoted(line[at:])


def source(line):
    """A line of a .rt file: no string, and its comment only between backquotes. No name of Rust's is in the table."""
    at = line.find("//")
    code, comment = (line, "") if at < 0 else (line[:at], line[at:])
    out, end = [], 0
    for m in STRING.finditer(code):
        out += [turned(code[end : m.start()]), m.group()]
        end = m.end()
    return "".join(out) + turned(code[end:]) + quoted(comment)


def edit(line, is_source):
    for head in ("old: ", "new: "):
        if line.startswith(head):
            return head + (source if is_source else proof)(line[len(head) :])
    return line


def rewrite(path, text):
    lines = text.split("\n")
    if path.endswith(".antt"):
        return "\n".join(map(proof, lines))
    if path.endswith(".rt"):
        return "\n".join(map(source, lines))
    if path.endswith(".edit"):
        is_source = False
        out = []
        for line in lines:
            if line.startswith("file:"):
                is_source = line.endswith(".rt")
            out.append(edit(line, is_source))
        return "\n".join(out)
    return "\n".join(map(quoted, lines))


def main():
    changed = 0
    for top in ("crates", "docs", "README.md"):
        for folder, dirs, files in [("", [], [top])] if os.path.isfile(top) else os.walk(top):
            dirs[:] = [d for d in dirs if d != "out"]
            for name in files:
                path = os.path.join(folder, name)
                if not name.endswith((".antt", ".rt", ".edit", ".md")) or os.path.islink(path):
                    continue
                with open(path, encoding="utf-8") as f:
                    text = f.read()
                new = rewrite(path, text)
                if new != text:
                    changed += 1
                    with open(path, "w", encoding="utf-8") as f:
                        f.write(new)
    print(f"respell: {changed} files")


if __name__ == "__main__":
    sys.exit(main())
