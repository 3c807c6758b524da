#!/usr/bin/env python3
"""Spells the repository's own definitions and lemmas as Rattle's library does: snake case.

usage: python3 tools/spell_names.py [--dry]     at the top of the repository

A name that specs/ or proofs/ declare and that has humps, as `plainWords` or `drop-putWord`, becomes
`plain_words` or `drop-put_word`, in every .rt and .antt file and in every must-fail edit. What begins with a
capital is a type and stays, alone or as a part of a lemma's name. Nothing else of src/ is touched: its own
functions have no humps, and strings are left as they are. It stops if two names would fall together.
"""

import os
import re
import sys

LETTER = r"[\w'′₀-₉-]"
SIGNATURE = re.compile(r"^\s*(?:(?:unfoldable|abbrev|opaque|pattern|pub|private|axiom)\s+)*((?:" + LETTER + r"+\s+)*?" + LETTER + r"+)\s*:(?:\s|$)")
HUMP = re.compile(r"(?<=[a-z0-9])([A-Z])")
# what the rule alone would spell badly: the library's word for `getD` is `get_or`, and `flag_word` is a field of src/
BY_HAND = {"getD": "get_or", "flagWord": "flag_word_of"}
# an alias and a parameter, which no signature declares
ALSO = ("complementOf", "replyLength")


def files(root, ends):
    for folder, dirs, names in os.walk(os.path.join(root, "crates")):
        dirs[:] = sorted(d for d in dirs if d != "out")
        for name in sorted(names):
            if name.endswith(ends):
                yield os.path.join(folder, name)


def spelled(name):
    """The name with each part between dashes in snake case, but for parts that are types."""

    def part(p):
        return BY_HAND.get(p) or (HUMP.sub(lambda m: "_" + m.group(1).lower(), p) if p[:1].islower() else p)

    return "-".join(map(part, name.split("-")))


def declared(text):
    for line in text.split("\n"):
        it = SIGNATURE.match(line.split("--")[0])
        if it:
            for name in it.group(1).split():
                if name not in ("record", "data", "module", "where", "let", "in", "pub"):
                    yield name


def main():
    root = os.getcwd()
    names = {}
    for path in files(root, ".antt"):
        with open(path, encoding="utf-8") as f:
            for name in declared(f.read()):
                names.setdefault(name, path)
    turned = {n: spelled(n) for n in names if n[:1].islower() and spelled(n) != n}
    turned |= {n: spelled(n) for n in ALSO}
    taken = {}
    for old, new in turned.items():
        if new in names or new in taken:
            print(f"falls together: {old} ({names[old]}) and {taken.get(new, new)} ({names.get(new, '')})")
        taken[new] = old
    together = [n for o, n in turned.items() if n in names]
    if together or len(set(turned.values())) < len(turned):
        if "--anyway" not in sys.argv:
            return 2
    word = re.compile(r"(?<![\w'′₀-₉·-])(" + "|".join(sorted(map(re.escape, turned), key=len, reverse=True)) + r")(?![\w'′₀-₉-])")
    changed = 0
    for path in files(root, (".antt", ".rt", ".edit")):
        with open(path, encoding="utf-8") as f:
            text = f.read()
        # strings stay: only the parts outside of them are turned
        parts = re.split(r'("(?:[^"\\\n]|\\.)*")', text)
        new = "".join(p if i % 2 else word.sub(lambda m: turned[m.group(1)], p) for i, p in enumerate(parts))
        if new != text:
            changed += 1
            if "--dry" not in sys.argv:
                with open(path, "w", encoding="utf-8") as f:
                    f.write(new)
    for old in sorted(turned):
        print(f"{old} -> {turned[old]}")
    print(f"{len(turned)} names, {changed} files")
    return 0


sys.exit(main())
