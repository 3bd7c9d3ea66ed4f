"""Sees that what README and docs/PROMISES.md cite stands in crates/: each definition, theorem, function and file.

    python3 docs/names.py

Looked at is what stands in backticks: a path into a crate (`crates/X/specs`, `placement/proofs/Survivors`, `Figure.antt`), which has to be
a file or folder of that name; and a name of several words (`demand-1-read`, `read_pack`, `Kept.answered`, `.of-named`) or one that begins
with a capital (`BaseRefused`), each of whose parts has to be declared in some crate, or to be a crate or a file there. Single small words
are not looked at: most of them are programs. Ends with status 1, and says which, where something is not there.
"""
import re
import sys
from pathlib import Path

CRATES = Path("crates")
PAGES = ["README.md", "docs/PROMISES.md"]
NAME = r"[A-Za-z_][A-Za-z0-9_'·₀-₉→≢≡≤⊎ᴰ-]*"
# what has the form of a name and is none of ours
OTHERS = {"logic-built", "libraries-built", "MUSSELTWIG_BAD_LENGTH", "MUSSELTWIG_LIB", "must-fail", "target", "README", "Result"}


def sources():
    return [path for path in CRATES.glob("*/*/**/*") if path.suffix in (".antt", ".rt") and path.parts[2] in ("src", "specs", "proofs")]


def declared():
    """Every name that a source declares: definitions, lemmas, fields and cases, functions and types; and crates, folders and files."""
    found = set()
    for path in sources():
        text = path.read_text(encoding="utf-8")
        if path.suffix == ".rt":
            found |= set(re.findall(r"\b(?:fn|struct|enum|const|type|trait|mod|static) (\w+)", text))
            found |= set(re.findall(r"^ +(?:pub )?(\w+)(?:\(.*\)|:.*)?,$", text, re.M))
        else:
            found |= set(re.findall(rf"^ *(?:(?:unfoldable|abbrev|opaque|pub|record|data) )*({NAME})(?: [^:\n]*)? ?:(?= |$)", text, re.M))
            found |= set(re.findall(rf"^ *(?:(?:abbrev|unfoldable|pub|record|data) )+({NAME})", text, re.M))
        found |= {path.stem, *path.parts[1:-1]}
    return found


def is_there(path, files):
    """Whether a path, from crates/ on or by its end alone, is a file or folder."""
    path = path.removeprefix("crates/").rstrip("/")
    if "*" in path:
        return any(CRATES.glob(path))
    ends = [path] if path.endswith((".antt", ".rt")) else [path, f"{path}.antt", f"{path}.rt"]
    return any((CRATES / it).exists() for it in ends) or any(it in files for it in ends)


def wrong(text, names, files, tops):
    for span in re.findall(r"(?<!`)`([^`\n]+)`(?!`)", text):
        path = re.fullmatch(r"[\w*+.-]+(?:/[\w*+.-]+)+|\w+\.(?:antt|rt)", span)
        if path and (span.split("/")[0] in tops or span.startswith("crates/") or span.endswith((".antt", ".rt"))):
            if not is_there(span, files):
                yield span
        elif re.fullmatch(rf"\.?{NAME}(?:(?:\.|::){NAME})*", span):
            for name in re.split(r"::|\.", span.removeprefix(".")):
                looked = re.search(r"[a-z0-9][-_][a-z0-9]|[a-z][A-Z]|^[A-Z][a-z]", name)
                # (`musseltwig_curve`, `_page`: the first gives the others their beginning)
                if looked and not name.startswith("_") and name not in names and name not in OTHERS:
                    yield span


def main():
    names, tops = declared(), {path.name for path in CRATES.iterdir()}
    files = {it for path in sources() for parts in [path.parts[1:]] for at in range(len(parts)) for it in ["/".join(parts[at:])]}
    found = [f"{page}: `{span}` is not in crates/" for page in PAGES
             for span in dict.fromkeys(wrong(Path(page).read_text(encoding="utf-8"), names, files, tops))]
    print("\n".join(found) or f"{' and '.join(PAGES)}: every name and file that they cite is in crates/")
    return 1 if found else 0


if __name__ == "__main__":
    sys.exit(main())
