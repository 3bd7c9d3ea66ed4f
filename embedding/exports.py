"""Makes crates/musseltwig, the static library, from the crates export_*, and holds its exports to them.

    python3 embedding/exports.py            writes crates/musseltwig/src/lib.rt, and says the crate's line of crates.txt
    python3 embedding/exports.py --check    writes nothing; says what differs, and ends with status 1 where something does

A crate is a library, which Rattle calls, or a static library, which C links. So each call of calls.txt is a function of a crate
export_*, and an export of crates/musseltwig, which calls that function and has its clauses word for word. Here the exports are made
of the functions, with the imports that their clauses cite; compared are the words, not how they are laid out.
"""
import re
import subprocess
import sys
from pathlib import Path

from declarations import CRATES, PREFIX, listed

SOURCE = CRATES / PREFIX / "src/lib.rt"
HEAD = """\
// The library for C and Rust: each call of the crates `export_*` as an exported function, with the same clauses. Made by
// embedding/exports.py.
#![tactic(auto)]

"""
FUNCTION = re.compile(r"((?:^//[^\n]*\n)*)^pub fn (\w+)\(([^)]*)\) -> usize\n((?:(?!^\{).)*)^\{\n", re.MULTILINE | re.DOTALL)
IMPORT = re.compile(r"^ghost use ([\w.]+)\.\{([^}]*)\};", re.MULTILINE)


def imports(text):
    """The path and the name, with `as` where it has one, of each ghost import."""
    return [(path, name.strip()) for path, names in IMPORT.findall(text) for name in re.sub(r"\s+", " ", names).split(",") if name.strip()]


def is_cited(name, clauses):
    """Whether the clauses use an imported name: a word, or an operator by its sign."""
    word = name.split(" as ")[-1]
    if word == "[]":
        return "[]" in clauses
    if "◌" in word:
        return all(f" {sign} " in f" {clauses} " for sign in word.replace("◌", " ").split())
    return re.search(rf"(?<![\w.'-]){re.escape(word)}(?![\w'-])", clauses) is not None


def functions():
    """Each call's crate, comment, name, parameters, clauses and the imports that these cite, in the order of calls.txt."""
    for call in listed():
        texts = [path.read_text(encoding="utf-8") for path in sorted((CRATES / call.crate / "src").glob("**/*.rt"))]
        found = [(text, it) for text in texts for it in FUNCTION.findall(text) if it[1] == f"{PREFIX}_{call.name}"]
        if len(found) != 1:
            sys.exit(f"crates/{call.crate} has {len(found)} functions {PREFIX}_{call.name} of the form of a call")
        text, (comment, name, given, clauses) = found[0]
        words = re.sub(r"\s+", " ", clauses)
        yield call.crate, comment, name, given, clauses, [it for it in imports(text) if is_cited(it[1], words)]


def made():
    """The text of the static library, and the crates that it stands on."""
    parts, cited, crates = [], {}, []
    for crate, comment, name, given, clauses, named in functions():
        passed = ", ".join(it.split(":")[0].strip() for it in given.split(",") if it.strip())
        signature = f'#[unsafe(no_mangle)]\npub extern "C" fn {name}({given}) -> usize\n'
        parts.append(f"{comment}{signature}{clauses}{{\n    {crate}::{name}({passed})\n}}\n")
        for path, it in named:
            cited.setdefault(path, []).append(it)
        crates.append(crate)
    names = {}
    for path, them in cited.items():
        for it in dict.fromkeys(them):
            if names.setdefault(it.split(" as ")[-1], path) != path:
                sys.exit(f"{it} is imported from {path} and from {names[it.split(' as ')[-1]]}: give one of them a name of its own")
    uses = [f"ghost use {path}.{{{', '.join(dict.fromkeys(them))}}};\n" for path, them in cited.items()]
    below = [path.split(".")[1] for path in cited if path.split(".")[1] != "std"] + crates
    return HEAD + "".join(uses) + "\n" + "\n".join(parts), list(dict.fromkeys(below))


def words(text):
    """A source without its layout."""
    return re.sub(r",\s*(?=[)}])", "", " ".join(re.findall(r"[\w.]+|[^\w\s.]", text))).split()


def main(check):
    text, below = made()
    order = [line.split(":")[0].split()[0] for line in Path(CRATES.parent / "crates.txt").read_text().splitlines() if re.match(r"\w", line)]
    line = f"{PREFIX} staticlib: {' '.join(sorted(below, key=order.index))}"
    if not check:
        SOURCE.parent.mkdir(parents=True, exist_ok=True)
        SOURCE.write_text(text, encoding="utf-8")
        subprocess.run(["rt", "fmt"], cwd=SOURCE.parent.parent, check=True)
        print(line)
        return 0
    faults = []
    if not SOURCE.exists() or words(SOURCE.read_text(encoding="utf-8")) != words(text):
        faults.append(f"{SOURCE.relative_to(CRATES.parent)} is not what the crates export_* give: run embedding/exports.py")
    if line not in (CRATES.parent / "crates.txt").read_text().splitlines():
        faults.append(f"crates.txt has no line '{line}'")
    print("\n".join(faults) or "the static library has the calls of the crates export_*, with their clauses")
    return int(bool(faults))


if __name__ == "__main__":
    sys.exit(main(sys.argv[1:] == ["--check"]))
