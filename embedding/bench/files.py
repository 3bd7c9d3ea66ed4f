"""Writes what embedding/bench measures on: the files of bench/inputs.py, and those that bench/worst.py, rounds.py and replay.py give the
test program: `worst-*` are placements, `rounds-*` q as a byte and a placement, `replay-*` a placement's length, it and a log.

    python3 embedding/bench/files.py FOLDER
"""
import runpy
import sys
from pathlib import Path

BENCH = Path(__file__).resolve().parent.parent.parent / "bench"
sys.path.insert(0, str(BENCH))

import inputs  # noqa: E402
from document01 import check_placement  # noqa: E402
from reading import numbers  # noqa: E402


def named(data):
    p = check_placement(data)
    return "-".join(f"{name}{p[name]}" for name in "nrsb")


def files():
    yield from inputs.inputs()
    for name, data, _ in runpy.run_path(str(BENCH / "worst.py"))["inputs"]():
        yield name, data
    for q, data in runpy.run_path(str(BENCH / "rounds.py"))["estates"]():
        yield f"rounds-{named(data)}-q{q}", bytes([q]) + data
    for *_, data, log in runpy.run_path(str(BENCH / "replay.py"))["estates"]():
        yield f"replay-{named(data)}", numbers(len(data)) + data + log


def main(folder):
    Path(folder).mkdir(parents=True, exist_ok=True)
    for name, data in files():
        (Path(folder) / name).write_bytes(data)


if __name__ == "__main__":
    main(sys.argv[1])
