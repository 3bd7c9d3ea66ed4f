#!/usr/bin/env python3
"""Brings the names that the pages cite to the spelling that crates/ has today.

usage: python3 tools/port_pages.py            at the top of a checkout; writes the pages, and says what each old name became
       python3 tools/port_pages.py --list     writes no page: the renamed definitions and lemmas of every crate, as docs/PORT.md has them

The old names are those of the commit LANDED, before the port; the new ones those of the commit SCRIPTS, over which port.py and
tools/respell.py have run, and of the files as they stand. A definition's or lemma's name is learned from where it is declared: the two
texts of a file declare the same things in the same order. A name of the library is learned from where it is used: the two texts of a
file are laid side by side, and what most often stands in its place is its new name. Replaced are whole names inside backticks.
"""
import collections
import difflib
import re
import subprocess
import sys
import tempfile
from pathlib import Path

LANDED = "04ac4e25e840c15a40de94acab9b99d30e7f6844"
SCRIPTS = "2ede9c6"
PAGES = ["README.md", "docs/*.md", "docs/changes/*.md", "*/README.md", "*/*.py", "*/*.sh", "embedding/**/*.rs", "embedding/**/*.[ch]",
         "embedding/calls.txt"]
NOT_THESE = {"docs/PORT.md", "docs/port-draft.md", "tools/port_pages.py", "tools/respell.py"}
NAME = re.compile(r"[A-Za-z_][A-Za-z0-9_'·₀-₉→≢≡≤⊎ᴰ-]*")
DECLARED = re.compile(rf"^ *(?:(?:unfoldable|abbrev|opaque|pub|record|data) )*({NAME.pattern})(?: [({{][^:\n]*:[^\n]*| [\w -]+)? ?:(?= )",
                      re.MULTILINE)
EDIT = re.compile(r"[a-z_]+/[a-z0-9-]+")
SPAN = re.compile(r"(?<!`)`([^`\n]+)`(?!`)")
# Names that neither way finds, by hand.
BY_HAND = {"inOrder": "is_in_order"}


def files_of(commit, folder):
    """The .antt and .rt files of a commit, by their paths as they are today."""
    archive = subprocess.run(["git", "archive", commit, "crates"], stdout=subprocess.PIPE, check=True).stdout
    subprocess.run(["tar", "xf", "-", "-C", folder], input=archive, check=True)
    found = {}
    for path in sorted(Path(folder).glob("crates/**/*")):
        if path.suffix in (".antt", ".rt"):
            name = str(path.relative_to(folder))
            found[re.sub(r"/\+([^/]*)", lambda m: "/+" + m[1].replace("+", "_"), name)] = path.read_text(encoding="utf-8")
    return found


def declared(text):
    """What a file declares, in order: definitions, lemmas, fields and cases."""
    return DECLARED.findall(re.sub(r"^ *--.*$", "", text, flags=re.MULTILINE))


def folded(name):
    return re.sub(r"[^a-z0-9]", "", name.lower())


def side_by_side(old, new):
    """The names of two lists that stand for one another."""
    if len(old) == len(new):
        yield from zip(old, new)
        return
    for kind, a, b, c, d in difflib.SequenceMatcher(None, [*map(folded, old)], [*map(folded, new)], autojunk=False).get_opcodes():
        if kind == "equal" or kind == "replace" and b - a == d - c:
            yield from zip(old[a:b], new[c:d])


def learned():
    """The new names: by crate and old name those declared, and by old name those of the library."""
    with tempfile.TemporaryDirectory() as one, tempfile.TemporaryDirectory() as other:
        before, after = files_of(LANDED, one), files_of(SCRIPTS, other)
    ours, used = collections.defaultdict(dict), collections.defaultdict(collections.Counter)
    for path, text in before.items():
        if path not in after:
            print(f"{path} is not in {SCRIPTS}", file=sys.stderr)
            continue
        crate = path.split("/")[1]
        if path.endswith(".antt"):
            for old, new in side_by_side(declared(text), declared(after[path])):
                if folded(old) == folded(new) or BY_HAND.get(old) == new:
                    ours[crate].setdefault(old, new)
        lines = [NAME.findall(it) for it in text.splitlines()], [NAME.findall(it) for it in after[path].splitlines()]
        for old, new in zip(*lines) if len(lines[0]) == len(lines[1]) else ():
            if len(old) == len(new):
                for a, b in zip(old, new):
                    used[a][b] += 1
    library = {old: new.most_common(1)[0][0] for old, new in used.items()}
    return ours, library


def standing():
    """Every name that crates/ has today."""
    return {name for path in Path("crates").glob("*/*/**/*") if path.suffix in (".antt", ".rt") and path.parts[2] != "out"
            for name in NAME.findall(path.read_text(encoding="utf-8"))}


def table():
    """Old name and new name of what the pages may cite."""
    ours, library = learned()
    here, told = standing(), collections.defaultdict(collections.Counter)
    for names in ours.values():
        for old, new in names.items():
            told[old][new] += 1
    found = {old: new.most_common(1)[0][0] for old, new in told.items()}
    # (a name that is still there was not the library's alone)
    library = {old: new for old, new in library.items() if old not in here and old not in found}
    return {old: new for old, new in {**library, **found, **BY_HAND}.items() if old != new}


def pages():
    for pattern in PAGES:
        for path in sorted(Path(".").glob(pattern)):
            if str(path) not in NOT_THESE and "target" not in path.parts:
                yield path


def before(path):
    """The page as it was."""
    done = subprocess.run(["git", "show", f"{LANDED}:{path}"], stdout=subprocess.PIPE, stderr=subprocess.DEVNULL)
    return done.stdout.decode("utf-8") if not done.returncode else ""


def rewrite():
    to, became = table(), collections.Counter()
    for path in dict.fromkeys(pages()):
        was = set(SPAN.findall(before(path)))
        text = path.read_text(encoding="utf-8")

        def name(found):
            new = to.get(found[0], found[0])
            became[found[0], new] += new != found[0]
            return new

        def span(found):
            # what was written since has today's names, and an edit's name is its file's
            is_left = found[1] not in was or EDIT.fullmatch(found[1])
            return found[0] if is_left else f"`{NAME.sub(name, found[1])}`"

        new = SPAN.sub(span, text)
        if new != text:
            path.write_text(new, encoding="utf-8")
    for (old, new), count in sorted((it, count) for it, count in became.items() if count):
        print(f"{old} -> {new} ({count})")


def listing():
    """What was renamed in specs/ and in the files of lemmas, by crate; a new name that has gone since is left out."""
    with tempfile.TemporaryDirectory() as one, tempfile.TemporaryDirectory() as other:
        before_, after = files_of(LANDED, one), files_of(SCRIPTS, other)
    here, told = standing(), collections.defaultdict(lambda: collections.defaultdict(dict))
    for path, text in before_.items():
        parts = path.split("/")
        if path.endswith(".antt") and path in after and (parts[2] == "specs" or len(parts) == 4):
            for old, new in side_by_side(declared(text), declared(after[path])):
                if old != new and new in here and (folded(old) == folded(new) or BY_HAND.get(old) == new):
                    told[parts[1]][parts[2]][old] = new
    for crate, kinds in sorted(told.items()):
        print(f"\n### {crate}")
        for kind in ("specs", "proofs"):
            if kinds[kind]:
                names = ", ".join(f"`{old}` → `{new}`" for old, new in sorted(kinds[kind].items()))
                print(f"\n{kind}: {names}.")


if __name__ == "__main__":
    listing() if sys.argv[1:] == ["--list"] else rewrite()
