"""Measures `rounds_code::rounds` against the baseline's `rounds`: its largest case, n = 10, q = 3, b = 256, r = 5, and smaller ones.

    python3 bench/rounds.py target/programs/vectors_test bench/baseline/target/release/rounds

Ours is what the test program takes for CALLS calls of `rounds` less what it takes for as many of `check_placement`; the baseline's is
what it takes for CALLS plays less what it takes for none. Both numbers must agree. Instructions are callgrind's; the time is user time,
the median of seven runs in turn.
"""
import os
import random
import statistics
import subprocess
import sys
import tempfile
from pathlib import Path

from run import callgrind, run, words_for

sys.path.insert(0, str(Path(__file__).resolve().parent.parent / "reference"))
from cases import placement_of  # noqa: E402
from document01 import check_placement  # noqa: E402
from rounds import rounds  # noqa: E402
from script import Script  # noqa: E402

CALLS = 50


def estates():
    draw = random.Random(33)
    for n, r, s, q, b in ((10, 5, 3, 3, 256), (10, 5, 5, 3, 256), (10, 5, 1, 3, 256), (10, 2, 2, 3, 256), (10, 5, 3, 2, 256), (7, 3, 2, 3, 64)):
        layers = [[] for _ in range(s - 1)] + [[tuple(sorted(draw.sample(range(n), r))) for _ in range(b)]]
        yield q, placement_of(3, n, r, s, max(s, n // 2), layers)


def script_of(data, name, own, answer):
    script = Script()
    script.read(data)
    for _ in range(CALLS):
        script.call(name, own, answer)
    return bytes(script.file)


def head_values(p):
    return [p[name] for name in ("kind", "n", "r", "s", "k", "b", "F", "at")] + [v for bound, rows in p["layers"] for v in (bound, len(rows))]


def measured(pairs, folder):
    """Instructions, and the median of user time in milliseconds, of the first words and source less those of the second, a call."""
    sources = []
    for i, (words, data) in enumerate(pairs):
        sources.append(os.path.join(folder, str(i)))
        Path(sources[i]).write_bytes(data)
    counts = [callgrind(words, source) for (words, _), source in zip(pairs, sources)]
    taken = [[run(words, source, os.path.join(folder, "reply"))[0] for _ in range(7)] for (words, _), source in zip(pairs, sources)]
    first, second = (statistics.median(times) for times in taken)
    return (counts[0] - counts[1]) / CALLS, 1e3 * (first - second) / CALLS


def main(ours, baseline):
    print("n r s q b | ours, instructions, ms | baseline | ratio of instructions, of time")
    for q, data in estates():
        p = check_placement(data)
        [number] = rounds(data, q)
        rows = data[p["at"]:]
        scripts = [script_of(data, "rounds", [q], [0, number]), script_of(data, "check_placement", [], [0, *head_values(p)])]
        words = words_for(Path(ours).resolve(), scripts[0])
        plain = [str(Path(baseline).resolve())]
        estate = bytes([p["n"], p["r"], p["s"], q]) + rows
        told = subprocess.run(plain + ["1"], input=estate, capture_output=True, check=True).stdout
        assert told == b"%d\n" % number, (told, number)
        with tempfile.TemporaryDirectory() as folder:
            mine = measured([(words, script) for script in scripts], folder)
            base = measured([(plain + [str(CALLS)], estate), (plain + ["0"], estate)], folder)
        print(p["n"], p["r"], p["s"], q, p["b"], "|", f"{mine[0]:,.0f} {mine[1]:.2f} | {base[0]:,.0f} {base[1]:.2f} |",
              f"{mine[0] / base[0]:.2f} {mine[1] / base[1]:.2f}", flush=True)


if __name__ == "__main__":
    main(*sys.argv[1:])
