"""Prints how large the tree is: the figures of docs/CHECK-TIMES.md.

    python3 docs/figures.py

Sizes are counted in crates/; functions of more than six parameters are named. rt tells no times of its own, so the times of that page
are those of whole runs.
"""
import re
from pathlib import Path

CRATES = Path("crates")
FUNCTION = re.compile(r"^ *(pub(?:\(\w+\))? )?(?:extern \"C\" )?fn (\w+)(?:<[^>]*>)?\(([^)]*)\)", re.MULTILINE)


def functions():
    """Crate, name, whether other crates may call it, and the parameters of every function."""
    for path in sorted(CRATES.glob("*/src/**/*.rt")):
        for public, name, parameters in FUNCTION.findall(path.read_text()):
            yield path.parts[1], name, public == "pub ", [p for p in parameters.split(",") if p.strip()]


def lines(pattern):
    return sum(len(path.read_text().splitlines()) for path in CRATES.glob(pattern))


def main():
    names = sorted(path.parent.parent.name for path in CRATES.glob("*/src/*.rt") if path.name in ("lib.rt", "main.rt"))
    code = list(functions())
    edits = {name: list((CRATES / name / "must-fail").glob("*.edit")) for name in names}
    programs = {path.parent.parent.name for path in CRATES.glob("*/src/main.rt")}
    library = [f for f in code if f[0] not in programs]
    print(f"{len(names)} crates: {len({f[0] for f in library})} libraries with code, {len(programs)} programs, the others definitions and laws")
    print(f"{len(library)} functions in libraries, {sum(f[2] for f in library)} of them public; {len(code) - len(library)} in programs")
    print(f"{sum(map(len, edits.values()))} must-fail edits")
    print(f"lines: src {lines('*/src/**/*.rt')}, specs {lines('*/specs/**/*.antt')}, proofs {lines('*/proofs/**/*.antt')}")
    many = [f"{crate}::{name} ({len(parameters)})" for crate, name, _, parameters in code if len(parameters) > 6]
    print(f"functions of more than six parameters: {', '.join(many) or 'none'}")


if __name__ == "__main__":
    main()
