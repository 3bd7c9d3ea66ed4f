"""Measures `replay_code::replay` against the baseline's `replay`: logs of 2,000 events on 4,096 records and fewer.

    python3 bench/replay.py target/programs/vectors_test bench/baseline/target/release/replay

Ours is what the test program takes for CALLS calls with the log less what it takes for as many with an empty log, the baseline's the same:
so the check of the placement and the list of the records on each node are left out, and 500 calls are 1,000,000 events. Both take
the log apart from its bytes at each call. The answers must agree. Instructions are callgrind's, of fewer calls; the time is user time,
the median of seven runs in turn.
"""
import os
import random
import statistics
import subprocess
import sys
import tempfile
from pathlib import Path

from run import callgrind, run, words_for

sys.path.insert(0, str(Path(__file__).resolve().parent.parent / "reference"))
from cases import placement_of  # noqa: E402
from document01 import check_placement  # noqa: E402
from script import Script  # noqa: E402

CALLS, COUNTED, EVENTS = 500, 20, 2_000


def estates():
    """n, s and the rows of each; the log takes any node down or up."""
    draw = random.Random(91)
    for n, r, s, b in ((255, 5, 3, 4_096), (255, 5, 1, 4_096), (255, 2, 2, 4_096), (20, 5, 5, 4_096), (255, 5, 3, 256)):
        rows = [tuple(sorted(draw.sample(range(n), r))) for _ in range(b)]
        data = placement_of(3, n, r, s, max(s, n // 2), [rows] + [[] for _ in range(s - 1)])
        down, log = set(), bytearray()
        for time in range(EVENTS):
            node = draw.randrange(n)
            log += time.to_bytes(4, "little") + bytes([node, node not in down])
            down ^= {node}
        yield n, r, s, data, bytes(log)


def script_of(data, log, answer, calls):
    script = Script()
    script.read(data + log)
    for _ in range(calls):
        script.call("replay", [len(data)], answer)
    return bytes(script.file)


def told(words, estate):
    """The baseline's answer as a vector has it."""
    text = subprocess.run(words + ["1"], input=estate, capture_output=True, check=True).stdout.decode()
    name, _, values = text.strip().rstrip(")").partition("(")
    number, *event = map(int, values.split(", "))
    return {"Lowest": [0, number, 1, *event], "Quiet": [0, number]}[name]


def median(words, data, folder):
    source = os.path.join(folder, "source")
    Path(source).write_bytes(data)
    return 1e3 * statistics.median(run(words, source, os.path.join(folder, "reply"))[0] for _ in range(7))


def counted(words, data, folder):
    source = os.path.join(folder, "counted")
    Path(source).write_bytes(data)
    return callgrind(words, source)


def main(ours, baseline):
    print("n r s b | ours, instructions an event, ms a million | baseline | ratio of instructions, of time")
    plain = [str(Path(baseline).resolve())]
    for n, r, s, data, log in estates():
        rows = data[check_placement(data)["at"]:]
        estate = bytes([n, r, s]) + len(rows).to_bytes(4, "little") + rows
        answers = [told(plain, estate + log), told(plain, estate)]
        words = words_for(Path(ours).resolve(), script_of(data, b"", answers[1], 1))
        with tempfile.TemporaryDirectory() as folder:
            sides = []
            for of_calls in (lambda calls: [(words, script_of(data, part, answer, calls)) for part, answer in zip((log, b""), answers)],
                             lambda calls: [(plain + [str(calls)], estate + part) for part in (log, b"")]):
                times = [median(*given, folder) for given in of_calls(CALLS)]
                counts = [counted(*given, folder) for given in of_calls(COUNTED)]
                sides.append(((counts[0] - counts[1]) / (COUNTED * EVENTS), (times[0] - times[1]) * 1e6 / (CALLS * EVENTS)))
        (mine, took), (base, plain_took) = sides
        print(n, r, s, len(rows) // r, "|", f"{mine:,.0f} {took:.0f} | {base:,.0f} {plain_took:.0f} | {mine / base:.2f} {took / plain_took:.2f}", flush=True)


if __name__ == "__main__":
    main(*sys.argv[1:])
