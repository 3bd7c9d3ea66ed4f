#!/usr/bin/env python3
"""Brings the repository's own definitions and lemmas to the spelling of today's Rattle: words in snake case.

usage: python3 tools/respell.py     at the top of a checkout over which port.py has run

port.py respells the names of the library and those of ours that are spelled as one of them. This turns what is left: a name that
begins small and has a capital inside, as `firstWhere` or `all-upTo-none`, becomes `first_where`, `all-up_to-none`, in crates/ in
every .antt and .rt file (code of .rt files has no such names, their clauses and comments do). Types and modules keep theirs.

Where the new name of a definition is the name of a lemma, that lemma or variable first takes a hyphen (LEMMAS), so that no two fall
together. A name that would fall together with another one in some other way stops the script before it writes.
"""

import collections
import os
import re
import sys

NAME = re.compile(r"[A-Za-z_][A-Za-z0-9_'·₀-₉→≢≡≤⊎ᴰ-]*")
INNER = re.compile(r"(?:^|-)[a-z](?:[a-z0-9_]*[a-z0-9])?[A-Z]")
# Lemmas and variables of the name that a definition takes: in the files that define, bind or bring them in they get a hyphen.
LEMMAS = (
    "same_nodes one_more number_read lines_at same_bytes of_word rows_end found_in too_long counts_of base_read numbers_after below_next"
    " blocks_at"
).split()
# `in_order` is the name of a record's field, of lemmas and of a function: the test of a row is asked by another.
OTHER = {"inOrder": "is_in_order"}
# Files that only read a field of such a name.
READERS = {"same_nodes": re.compile(r"crates/worst\w*/proofs/")}


def files():
    for folder, dirs, names in os.walk("crates"):
        dirs[:] = sorted(d for d in dirs if d not in ("out", ".git"))
        for name in sorted(names):
            if name.endswith((".antt", ".rt")):
                yield os.path.join(folder, name)


def snake(name):
    name = "-".join(OTHER.get(word, word) for word in name.split("-"))
    return re.sub(r"([a-z0-9])([A-Z]+)", lambda m: f"{m[1]}_{m[2].lower()}", name)


def binds(name, text):
    """Whether a file of proofs defines, binds or brings in this name."""
    w = rf"(?<![\w'.-]){name}(?![\w'-])"
    return bool(
        re.search(rf"^\s*(?:pub |abbrev |unfoldable )*{w}\s*:", text, re.M)
        or re.search(rf"\({w} :", text)
        or re.search(rf"\blet {w} :", text)
        or re.search(rf"\{{[^{{}}\n]*{w}[^{{}}\n]*\}}", text)
        or re.search(rf"^\s+{w} = ", text, re.M)
    )


def renamed(text, to):
    return NAME.sub(lambda m: to.get(m[0], m[0]), text)


def main():
    if not os.path.isdir("crates"):
        print("respell: no crates/ here", file=sys.stderr)
        return 2
    texts = {p: open(p, encoding="utf-8").read() for p in files()}
    told = collections.Counter()
    for path in texts:
        if not path.endswith(".antt") or "/proofs/" not in path:
            continue
        for name in LEMMAS:
            reads = READERS.get(name)
            if binds(name, texts[path]) or (reads and reads.match(path)):
                text = re.sub(rf"(?<![\w'-]){name}(?![\w'-])", name.replace("_", "-"), texts[path])
                told[name] += text != texts[path]
                texts[path] = text
    names = {m[0] for text in texts.values() for m in NAME.finditer(text)}
    to = {name: snake(name) for name in names if INNER.search(name)}
    clash = [names for names in collections.Counter(to.values()).items() if names[1] > 1]
    old = {new: name for name, new in to.items()}
    for path, text in texts.items():
        if path.endswith(".antt"):
            # the old and the new name in one file, the new one bound there
            here = {m[0] for m in NAME.finditer(text)}
            clash += [(path, old[new], new) for new in here & set(old) if old[new] in here and binds(re.escape(new), text)]
    if clash:
        print("respell: these names fall together:", *clash, sep="\n  ")
        return 1
    changed = 0
    for path, text in texts.items():
        new = renamed(text, to)
        if new != open(path, encoding="utf-8").read():
            changed += 1
            with open(path, "w", encoding="utf-8") as f:
                f.write(new)
    print(f"respell: {len(to)} names in {changed} files; lemmas that took a hyphen: {dict(told)}")
    return 0


if __name__ == "__main__":
    raise SystemExit(main())
