#!/usr/bin/env python3
"""Spells the repository's own definitions and lemmas in snake case, as today's Rattle does.

usage: python3 tools/respell.py [FOLDER]     FOLDER is the top of a checkout (default: the current one)

Run once, right after the kit's own script. Words that begin in lower case and have a capital inside, as `departCall`,
become `depart_call`, in .antt and .rt files, in must-fail edits, and in README.md and docs/ where the crates have the
new word. Text in quotes and Rust's own names are left: those have no such words. Names that would fall together with
another are given in SPECIAL.
"""

import os
import re
import sys

# What would otherwise have the name of something else in its module.
SPECIAL = {
    "has_part": "has_part_lem",  # the lemma on `hasPart`, which becomes `has_part`
    "join_by": "join_by_lem",  # the lemma on `joinBy`
    "take_by": "take_by_lem",  # the lemma on `takeBy`
    "inOrder": "gathered",  # beside the field `in_order` of a record in its module
}
WORD = re.compile(r"(?<![A-Za-z0-9_'\\])[A-Za-z_][A-Za-z0-9_']*")
CAMEL = re.compile(r"[a-z][a-z0-9]*(?:[A-Z][a-z0-9]*)+$")
QUOTED = re.compile(r'b?"(?:[^"\\\n]|\\.)*"')


def snake(word):
    return re.sub(r"(?<=[a-z0-9])([A-Z])", lambda m: "_" + m[1].lower(), word)


def respelled(word):
    if word in SPECIAL:
        return SPECIAL[word]
    if word == "getD":
        return "get_or"
    return snake(word) if CAMEL.match(word) else word


def turned(text, keep_quoted, only=None):
    def word(m):
        new = respelled(m[0])
        return new if only is None or new in only else m[0]

    if not keep_quoted:
        return WORD.sub(word, text)
    out, at = [], 0
    for q in QUOTED.finditer(text):
        out += [WORD.sub(word, text[at : q.start()]), q[0]]
        at = q.end()
    return "".join(out) + WORD.sub(word, text[at:])


def files(top, folder, endings):
    for where, dirs, names in os.walk(os.path.join(top, folder)):
        dirs[:] = sorted(d for d in dirs if d not in ("out", ".git"))
        for n in sorted(names):
            if n.endswith(endings):
                yield os.path.join(where, n)


def rewrite(path, change):
    with open(path, encoding="utf-8") as f:
        old = f.read()
    new = change(old)
    if new != old:
        with open(path, "w", encoding="utf-8") as f:
            f.write(new)
    return new


def main(top):
    known = set()
    for path in files(top, "crates", (".antt", ".rt", ".edit")):
        new = rewrite(path, lambda t: turned(t, not path.endswith(".antt")))
        known.update(m[0] for m in WORD.finditer(new))
    pages = [os.path.join(top, "README.md"), *files(top, "docs", (".md",))]
    for path in pages:
        if os.path.exists(path):
            rewrite(path, lambda t: turned(t, False, known))


if __name__ == "__main__":
    main(sys.argv[1] if len(sys.argv) > 1 else ".")
