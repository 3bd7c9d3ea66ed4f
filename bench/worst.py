"""The true worst case, ours against plain Rust: instructions and user time of a call, by the difference of many calls and none.

    python3 bench/worst.py VECTORS_TEST WORST [--runs N]

VECTORS_TEST is our test program (target/programs/vectors_test), which is given as many vectors of the call; WORST is the baseline's
program `worst`. The vectors' answers are the baseline's, so that both have to agree.
"""
import argparse
import random
import subprocess
import sys
import tempfile
from pathlib import Path

from run import callgrind, run, words_for

sys.path.insert(0, str(Path(__file__).resolve().parent.parent / "reference"))
from document01 import check_placement, figure, numbers  # noqa: E402
from script import Script  # noqa: E402


def placement(n, r, s, k, rows):
    """The rows in layer s-1, under a bound that no set of nodes passes."""
    b = len(rows)
    heads = [(0, 0)] * (s - 1) + [(b, b)]
    head = numbers(3, n, r, s, k, b, figure(3, s, k, b, heads), *(v for pair in heads for v in pair))
    return head + bytes(v for row in rows for v in row)


def inputs():
    """Each input, and how many calls of it are made."""
    draw = random.Random(7)
    for n, r, s, k, b, calls in ((91, 3, 2, 2, 4_096, 40), (14, 4, 3, 7, 4_096, 4)):
        rows = [tuple(sorted(draw.sample(range(n), r))) for _ in range(b)]
        yield f"worst-{n}-{k}-{b}", placement(n, r, s, k, rows), calls
    # twelve nodes fail all of three rows at most, so that no set leaves none
    yield "worst-24-12-6", placement(24, 4, 4, 12, [tuple(range(v, v + 4)) for v in range(0, 24, 4)]), 2
    # the rows have the last nodes, so that the sets that leave none come late
    yield "worst-255-252-6", placement(255, 5, 5, 252, [tuple(range(v, v + 5)) for v in range(225, 255, 5)]), 10


def script_of(data, call, answer, written, calls):
    script = Script()
    script.read(data)
    for _ in range(calls):
        script.call(call, [], answer, room=255 if call == "worst_case" else 0, written=written)
    return bytes(script.file)


def measured(words, source, runs):
    """The instructions and the median user time of a run."""
    times = sorted(run(words, source, "/dev/null")[0] for _ in range(runs))
    return callgrind(words, source), times[runs // 2]


def main():
    parser = argparse.ArgumentParser(description=__doc__.splitlines()[0])
    parser.add_argument("ours", type=Path)
    parser.add_argument("baseline", type=Path)
    parser.add_argument("--runs", type=int, default=9)
    given = parser.parse_args()
    with tempfile.TemporaryDirectory() as room:
        def stored(name, data):
            path = Path(room) / name
            path.write_bytes(data)
            return str(path)

        ours = words_for(given.ours.resolve(), script_of(bytes(2), "check_placement", [1, 2], b"", 0))
        base = [str(given.baseline.resolve())]
        print("| input | ours, instructions a call | plain Rust | ratio | ours, ms | plain Rust | ratio | all rows counted, ms | ours of it |")
        print("|---|---|---|---|---|---|---|---|---|")
        for name, data, calls in inputs():
            assert check_placement(data)
            source = stored(name, data)
            with open(source, "rb") as file:
                number, *nodes = map(int, subprocess.run(base + ["1"], stdin=file, capture_output=True, check=True).stdout.split())
            many = stored(name + "-ours", script_of(data, "worst_case", [0, number], bytes(nodes), calls))
            none = stored(name + "-none", script_of(data, "worst_case", [0, number], bytes(nodes), 0))
            with open(many, "rb") as file:
                assert b"wrong" not in subprocess.run(ours, stdin=file, capture_output=True, check=True).stdout, name

            def a_call(words, source, none_words, none_source):
                found, start = measured(words, source, given.runs), measured(none_words, none_source, given.runs)
                return [(a - b) / calls for a, b in zip(found, start)]

            mine = a_call(ours, many, ours, none)
            plain = a_call(base + [str(calls)], source, base + ["0"], source)
            rows = ["", ""]
            if calls == 40:
                slow = a_call(base + [str(calls), "rows"], source, base + ["0"], source)[1]
                rows = [f"{1000 * slow:.2f}", f"{mine[1] / slow:.3f}"]
            print(f"| `{name}` | {mine[0]:,.0f} | {plain[0]:,.0f} | {mine[0] / plain[0]:.2f} | {1000 * mine[1]:.2f} | {1000 * plain[1]:.2f} "
                  f"| {mine[1] / plain[1]:.2f} | {rows[0]} | {rows[1]} |", flush=True)


if __name__ == "__main__":
    main()
