"""Writes target/must-fail.md: every must-fail edit with the fact that refuses it, from what `rt ci` said of it.

    rt ci | tee ci.log; python3 docs/must_fail.py ci.log

For each edit: the wrong program, the function or definition that it changes, and the first fact that no longer holds, as rt tells it:
the place, and the name of the goal. rt's line has the first 160 characters of the prover's first message that is not only about a name
that the edit took away; where each message is only about such a name, or the prover gave no verdict, the line says so in words of its
own. Ends with status 1, and says why, where rt ci said nothing of an edit or did not refuse it, where its line names no fact, where it
only says that a proof file does not fit the changed code or that a limit was met, or where docs/MUST-FAIL.md or docs/DECISIONS.md
names an edit that is not there.
"""
import re
import sys
from pathlib import Path

CRATES = Path("crates")
PAGES = [Path("docs/MUST-FAIL.md"), Path("docs/DECISIONS.md")]
LIST = Path("target/must-fail.md")
REFUSED = "refused, as it must be"

# what the prover says where the proof was written for code of another shape: nothing is shown by that
MISFITS = [
    r"\(only because a proof file names what the edit took away",
    r"\(only by a limit of the prover",
    r"this pattern needs a function",
    r"has no `[^`]+` that can be named from here",
    r"has no field `",
    r"is not in scope",
]


class Unshown(Exception):
    """An edit that shows nothing."""


def parts(edit):
    """What the wrong program does, and each replaced text with its file."""
    wrong, file, replaced = "", "", []
    for line in edit.read_text().splitlines():
        if line.startswith("# ") and not wrong:
            wrong = line[2:]
        elif line.startswith("file: "):
            file = line[6:]
        elif line.startswith("old: "):
            replaced.append((file, line[5:]))
    return wrong, replaced


def changed(crate, replaced):
    """The function or definition in which the last replaced text stands that is in the file as it is."""
    texts = [(file, old, (CRATES / crate / file).read_text()) for file, old in replaced]
    file, old, text = [found for found in texts if found[1] in found[2]][-1]
    before = text[:text.index(old) + len(old)]
    kinds = r"^ *(?:pub(?:\(\w+\))? )?(?:extern \"C\" )?fn (\w+)|^(?:pub )?(?:const|enum|struct) (\w+)" if file.endswith(".rt") \
        else r"^ *(?:(?:unfoldable|abbrev|pub|record) )+([^\s:]+)|^([^\s:(]+)(?: [^:=\n]*)? ="
    names = [name for found in re.findall(kinds, before, re.MULTILINE) for name in found if name and name != "use"]
    return names[-1] if names else file


def told(log):
    """What rt said of each edit, by its crate and name."""
    return dict(re.findall(r"^rt: must-fail (\S+?)\.edit: (.*)$", Path(log).read_text(encoding="utf-8", errors="replace"), re.MULTILINE))


def fact(said):
    """The first fact that fails, by its name or in words, and where it stands."""
    if said is None:
        raise Unshown("rt ci said nothing of it")
    if not said.startswith(REFUSED):
        raise Unshown(said)
    for misfit in MISFITS:
        if re.search(misfit, said):
            raise Unshown(f"its refusal shows nothing of the contract: {said[len(REFUSED):].strip(' :')}")
    message = said[len(REFUSED):].strip(" :")
    found = re.match(r"(?:note: )?(?:\./)?(\S+?):\d+:\d+: (?:error: )?(.*)", message)
    if not found:
        raise Unshown("its line names no fact")
    place, why = found.groups()
    named = re.match(r"`([^`]+)`:", why) or re.search(r"\(`([^`]+)`\)?", why)
    return f"`{named.group(1)}`" if named else why.replace("|", r"\|"), place


def row(crate, edit, said):
    wrong, replaced = parts(edit)
    name, place = fact(said)
    for end in ("/Answers.antt", "/Invariants.antt", "/Proof.antt", ".antt"):
        place = place.removesuffix(end)
    return f"| {edit.stem} | {wrong} | `{changed(crate, replaced)}` | {name} in {place.removeprefix('proofs/')} |"


def main(log):
    edits = {f"{path.parts[1]}/{path.stem}": path for path in sorted(CRATES.glob("*/must-fail/*.edit"))}
    named = [(page, name) for page in PAGES for name in re.findall(r"`([a-z_]+/[a-z0-9-]+)`", page.read_text())]
    wrong = [f"{name}: {page} names it, and there is no such edit" for page, name in named if name not in edits]
    lines, said = [f"# All {len(edits)} must-fail edits, by crate\n"], told(log)
    crate = None
    for name, path in edits.items():
        if path.parts[1] != crate:
            crate = path.parts[1]
            lines.append(f"\n## {crate}\n\n| edit | wrong program | changes | first fact that fails |\n|---|---|---|---|")
        try:
            lines.append(row(crate, path, said.get(name)))
        except Unshown as why:
            wrong.append(f"{name}: {why}")
    LIST.parent.mkdir(exist_ok=True)
    LIST.write_text("\n".join(lines) + "\n")
    for line in wrong:
        print(line)
    print(f"{len(edits)} edits, {len(wrong)} without a fact or not there; the list is in {LIST}")
    sys.exit(1 if wrong else 0)


if __name__ == "__main__":
    main(*sys.argv[1:2] or sys.exit(__doc__))
