#!/usr/bin/env python3
"""Brings the must-fail edits from the spelling of the older Rattle to today's.

usage: python3 tools/port_edits.py COMMIT           at the top of a checkout; COMMIT is the last one in the old spelling
       python3 tools/port_edits.py COMMIT names     prints the dictionary

The dictionary of names is learnt: each file of src/ and specs/ at COMMIT is set beside today's, token by token, and what stands in
the place of a name is its new name. A text of an edit is turned by that dictionary and by the rules for projections, paths and
operators. What an edit brings into scope is added to the file's line for the library. Each `old:` text must then stand in today's
file just once, on the line that has taken the place of the old one; an edit for which that fails is named and left as it is, to be
turned by hand. An edit that was turned already is left as it is too.
"""

import collections
import difflib
import glob
import os
import re
import subprocess
import sys

NAME = r"(?<!\w)[^\W\d_][\w'′·≢≡≤⊎ᴰ-]*|(?<!\w)_[^\s\w,{}()]+_"
TOKEN = re.compile(rf"{NAME}|\d[\d_]*|[^\s\w]|_")
PRELUDE = "use Rattle.std.specs.Prelude.{"


def show(commit, path):
    r = subprocess.run(["git", "show", f"{commit}:{path}"], capture_output=True, text=True)
    return r.stdout if r.returncode == 0 else None


def read(path):
    with open(path, encoding="utf-8") as f:
        return f.read()


def pairs_of(text):
    """The file of an edit, its comment lines and its pairs."""
    path, old, comment, pairs = "", None, [], []
    for line in text.split("\n"):
        if line.startswith("file: "):
            assert not path, "two files"
            path = line[len("file: ") :].strip()
        elif line.startswith("old: "):
            old = line[len("old: ") :]
        elif line.startswith("new:"):
            pairs.append((old, line[len("new:") :].removeprefix(" ")))
        elif line:
            comment.append(line)
    return path, comment, pairs


def written(path, comment, pairs):
    lines = [*comment, f"file: {path}"]
    for old, new in pairs:
        lines += [f"old: {old}", f"new: {new}" if new else "new:"]
    return "\n".join(lines) + "\n"


def applied(text, pairs):
    for old, new in pairs:
        if text.count(old) != 1 or old == new:
            return None
        text = text.replace(old, new)
    return text


def learn(commit, files):
    """What stands today in the place of each name, in the files that are in both."""
    told = collections.defaultdict(collections.Counter)
    for path in files:
        was = show(commit, path)
        if was is None or not os.path.isfile(path):
            continue
        # the imports are in another order, so only the rest is set side by side
        a, b = ([t for line in text.split("\n") if not re.match(r"(ghost )?use ", line) for t in TOKEN.findall(line)] for text in (was, read(path)))
        for op, i, j, k, m in difflib.SequenceMatcher(None, a, b, autojunk=False).get_opcodes():
            if op == "equal" or (op == "replace" and j - i == m - k):
                for x, y in zip(a[i:j], b[k:m]):
                    told[x][y] += 1
    best = {x: ys.most_common(1)[0][0] for x, ys in told.items() if x not in ("now", "entry", "exit")}
    return {x: y for x, y in best.items() if re.fullmatch(NAME, x) and re.fullmatch(NAME, y)}


def snake(name):
    return re.sub(r"([a-z0-9])([A-Z]+)", lambda m: f"{m[1]}_{m[2].lower()}", name) if re.match(r"[a-z]", name) else name


def respelled(text, names):
    text = re.sub(r"Rattle·([\w]+)\.specs\.", r"Rattle.\1.specs.", text).replace("the-variants", "TheVariants")
    text = re.sub(rf"{NAME}", lambda m: names.get(m[0], snake(m[0])) if "_" != m[0][0] else re.sub("_", "◌", m[0]), text)
    text = text.replace("⌜ ", "").replace(" ⌝", "")
    # `(x .f .g)` is `x.f.g`, and `x .f` is `x.f` where `x` is no argument
    text = re.sub(r"\(([^\W\d][\w'-]*)((?: \.[\w'-]+)+)\)", lambda m: m[1] + m[2].replace(" ", ""), text)
    text = re.sub(r"((?:^|[=(+*/,∷→≡≤%]|-|\+\+) ?)([^\W\d][\w'-]*)((?: \.[\w'-]+)+)", lambda m: m[1] + m[2] + m[3].replace(" ", ""), text)
    return text


def line_of(text, at):
    return text.count("\n", 0, at)


def same_place(was, now, names, old, new_old):
    """Whether the line of `old` in the old file is, turned, the line of `new_old` in today's."""
    i, k = line_of(was, was.index(old)), line_of(now, now.index(new_old))
    a = [re.sub(r"\s+|[().]", "", respelled(line, names)) for line in was.split("\n")]
    b = [re.sub(r"\s+|[().]", "", line) for line in now.split("\n")]
    for x, y, n in difflib.SequenceMatcher(None, a, b, autojunk=False).get_matching_blocks():
        if x <= i < x + n:
            return y + i - x == k
    # the line itself has changed in some other way: the nearest lines that have not tell
    before = after = None
    for x, y, n in difflib.SequenceMatcher(None, a, b, autojunk=False).get_matching_blocks():
        if n and x + n <= i:
            before = y + n
        if n and x > i and after is None:
            after = y
    return (before or 0) <= k < (after if after is not None else len(b))


def imports(line):
    m = re.match(r"(ghost )?use [\w·.-]+\.\{(.*)\};?", line)
    return None if not m else m[2].split(", ")


def main(argv):
    if not argv or not os.path.isdir("crates"):
        print("port_edits: give the commit, at the top of a checkout", file=sys.stderr)
        return 2
    commit = argv[0]
    files = sorted(glob.glob("crates/*/src/**/*.rt", recursive=True) + glob.glob("crates/*/specs/**/*.antt", recursive=True))
    names = learn(commit, files)
    if "names" in argv:
        print(*sorted(f"{x} {y}" for x, y in names.items() if x != y), sep="\n")
        return 0
    left = turned = 0
    for path in sorted(glob.glob("crates/*/must-fail/*.edit")):
        crate = os.path.dirname(os.path.dirname(path))
        text = show(commit, path)
        if text is None or text != read(path):
            continue
        file, comment, pairs = pairs_of(text)
        was, now = show(commit, f"{crate}/{file}"), read(f"{crate}/{file}")
        assert applied(was, pairs), path
        out, why, state = [], "", now
        for old, new in pairs:
            a, b = imports(old), imports(new)
            if a is not None and b is not None:
                more = [it for it in b if it not in a]
                gone = [it for it in a if it not in b]
                more = [respelled(it, names) for it in more]
                scope = {it for line in now.split("\n") for it in imports(line) or []}
                add = [it for it in more if it not in scope]
                if gone:
                    why = f"it takes {gone} out of the imports"
                if "Rattle·" in old and add:
                    head = respelled(old[: old.index("{") + 1], names).replace("·specs.specs", ".specs")
                    out.append((head, head + "".join(it + ", " for it in add)))
                elif add:
                    out.append((PRELUDE, PRELUDE + "".join(it + ", " for it in add)))
                continue
            turns = [(old, new)] if file.endswith(".rt") else []
            turns.append((respelled(old, names), respelled(new, names)))
            found = next((t for t in turns if state.count(t[0]) == 1), None)
            if found is None:
                why = why or f"{state.count(turns[-1][0])} times: {turns[-1][0]}"
                break
            if old in was and found[0] in now and not same_place(was, now, names, old, found[0]):
                why = why or f"at another place: {found[0]}"
            state = state.replace(*found)
            out.append(found)
        if not why and applied(now, out) is None:
            why = "it does not apply"
        if why:
            left += 1
            print(f"{path}: {why}")
            continue
        comment = [re.sub(NAME, lambda m: names.get(m[0], m[0]) if re.search(r"[a-z][A-Z]", m[0]) else m[0], line) for line in comment]
        new_text = written(file, comment, out)
        if new_text != text:
            turned += 1
            with open(path, "w", encoding="utf-8") as f:
                f.write(new_text)
    print(f"port_edits: {turned} edits turned, {left} left")
    return 0


if __name__ == "__main__":
    raise SystemExit(main(sys.argv[1:]))
