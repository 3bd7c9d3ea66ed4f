"""Counts the instructions of single calls of `check`, `plan`, `ask`, `commit`, `page` and `certify`, ours and the baseline's.

    python3 bench/calls.py OURS BASELINE [--only TEXT]

OURS has the test program that `.ci/build vectors_test` leaves (target/programs), BASELINE the programs of cargo. Ours are run by the
test program: a file of many vectors less one of a single vector, and less the same of `read_number` lent an output as long that is to
be left as it was, which is what the test program itself takes to fill its slices and to compare as many bytes. The baseline's are
many turns less one.
Instructions are callgrind's, on the inputs `check-*` and `plan-*` of inputs.py, of `certify` on the bare rows of the former; the check of the
pack, placement or rows is in both. `check` and `plan` are the programs' replies, with no process's start in them.
"""
import argparse
import sys
import tempfile
from pathlib import Path

REPOSITORY = Path(__file__).resolve().parent.parent
sys.path.insert(0, str(REPOSITORY / "reference"))

from cabinet_page import page  # noqa: E402
from certify import bare_bytes, certify  # noqa: E402
from committing import ask, commit  # noqa: E402
from document01 import ROOM, Refused, check_placement, check_reply, plan, plan_reply, read_number  # noqa: E402
from inputs import inputs  # noqa: E402
from run import callgrind, words_for  # noqa: E402
from script import FILLS, Script  # noqa: E402

TURNS = 20
PAGES = ("check-nine", "check-r2", "check-r5", "check-r5-layer0")


def vectors(pack, turns, call):
    """A file of `turns` vectors of one call."""
    script = Script()
    script.read(pack)
    for _ in range(turns):
        call(script)
    return bytes(script.file)


def unread(script, room, size):
    """A vector of a call that leaves its output, of which `size` bytes are compared with what it was filled with."""
    fill = FILLS[len(script.calls) % 2]
    script.call("read_number", [0], [0, *read_number(script.input, 0)], room=room, written=bytes([fill]) * size)


def per_turn(words, many, one):
    """Instructions of one turn."""
    return (callgrind(words, many) - callgrind(words, one)) / TURNS


def room_needed(pack, s, k, b):
    """The bytes that planning asks for."""
    try:
        plan(pack, s, k, b, None, 0)
    except Refused as e:
        return e.place
    raise AssertionError("an output of no bytes was taken")


def ours(words, folder, pack, call):
    files = []
    for turns in (1 + TURNS, 1):
        files.append(folder / f"{turns}")
        files[-1].write_bytes(vectors(pack, turns, call))
    return per_turn(words, *files)


def measured(words, base, folder, name, data):
    s, k, b, at = 0, 0, 0, 0
    s, at = read_number(data, 0)
    k, at = read_number(data, at)
    b, at = read_number(data, at)
    pack, source = data[at:], folder / "order"
    source.write_bytes(data)
    figure, counts, copies = ask(pack, s, k, b)
    out, _, _ = commit(pack, s, k, b, counts)
    room, work = room_needed(pack, s, k, b), s * (b + 1)
    calls = {"ask": lambda to: to.call("ask", [s, k, b], [0, figure, *counts, *copies], work=work, free=work),
             "commit": lambda to: to.call("commit", [s, k, b], [0, len(out), figure, *counts], room=room, written=out, more=counts)}
    idle = {"ask": lambda to: unread(to, 0, 0), "commit": lambda to: unread(to, room, len(out))}
    for call in ("ask", "commit"):
        mine = ours(words, folder, pack, calls[call]) - ours(words, folder, pack, idle[call])
        theirs = (callgrind(base + [call, str(1 + TURNS)], source) - callgrind(base + [call, "1"], source)) / TURNS
        print(f"| `{call}` of `{name}` | {mine:,.0f} | {theirs:,.0f} | {mine / theirs:.2f} |", flush=True)


def page_measured(words, base, folder, name, data):
    text, source = page(data), folder / "placement"
    source.write_bytes(data)
    mine = ours(words, folder, data, lambda to: to.call("page", [], [0, len(text)], room=len(text), written=text))
    mine -= ours(words, folder, data, lambda to: unread(to, len(text), len(text)))
    theirs = (callgrind(base + ["page", str(1 + TURNS)], source) - callgrind(base + ["page", "1"], source)) / TURNS
    print(f"| `page` of `{name}` | {mine:,.0f} | {theirs:,.0f} | {mine / theirs:.2f} |", flush=True)


def certify_measured(words, base, folder, name, data):
    p = check_placement(data)
    rows, source = [row for _, layer in p["layers"] for row in layer], folder / "rows"
    bare = bare_bytes(p["n"], p["r"], p["dark"], p["s"], p["k"], rows)
    source.write_bytes(bare)
    out, figure, counts = certify(bare)
    room = ROOM + p["b"] * p["r"]
    mine = ours(words, folder, bare, lambda to: to.call("certify", [], [0, len(out), figure, *counts], room=room, written=out))
    mine -= ours(words, folder, bare, lambda to: unread(to, room, len(out)))
    theirs = (callgrind(base + ["certify", str(1 + TURNS)], source) - callgrind(base + ["certify", "1"], source)) / TURNS
    print(f"| `certify` of `{name}` | {mine:,.0f} | {theirs:,.0f} | {mine / theirs:.2f} |", flush=True)


def reply_measured(words, base, folder, name, data):
    """The reply of the program that the input's name begins with."""
    call, source = name.split("-")[0], folder / "input"
    source.write_bytes(data)
    text, room = (check_reply(data), 200) if call == "check" else (plan_reply(data), 20_928)
    mine = ours(words, folder, data, lambda to: to.call(f"{call}_reply", [], [0, len(text)], room=room, written=text))
    mine -= ours(words, folder, data, lambda to: unread(to, room, len(text)))
    theirs = (callgrind(base + [call, str(1 + TURNS)], source) - callgrind(base + [call, "1"], source)) / TURNS
    print(f"| `{name}` | {mine:,.0f} | {theirs:,.0f} | {mine / theirs:.2f} |", flush=True)


def main():
    options = argparse.ArgumentParser(description=__doc__.splitlines()[0])
    options.add_argument("ours", type=Path)
    options.add_argument("baseline", type=Path)
    options.add_argument("--only", default="", help="only inputs with this text in their names")
    given = options.parse_args()
    words = words_for((given.ours / "vectors_test").resolve(), b"")
    base = [str((given.baseline / "calls").resolve())]
    print("| call | ours, instructions | tuned | ratio |\n|---|---|---|---|")
    with tempfile.TemporaryDirectory() as folder:
        for name, data in inputs():
            if name.startswith(("check-", "plan-")) and given.only in name:
                reply_measured(words, base, Path(folder), name, data)
            if name.startswith("plan-") and given.only in name:
                measured(words, base, Path(folder), name, data)
            if name in PAGES and given.only in name:
                page_measured(words, base, Path(folder), name, data)
                certify_measured(words, base, Path(folder), name, data)


if __name__ == "__main__":
    main()
