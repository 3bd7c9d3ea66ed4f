"""Cases by hand, accepted and refused, and then fresh random ones, through the built programs of the calls, with numbers typed and in
the file's own form; their replies are compared.

    python3 reference/run_programs.py [COUNT [SEED]]

COUNT cases in all (1,000 where none is said). The seed is fresh at each run and printed first. The programs are those that `.ci/build`
or `.ci/run` leaves, target/programs/NAME; those that are not there are left out.
"""
import random
import secrets
import subprocess
import sys
import tempfile
from collections import Counter
from pathlib import Path

from bare import BARE_DARK, BARE_SEVEN, random_bare
from cases import damaged, of_kind, random_order, random_pack, small_fed
from document01 import numbers
from programs import kind
from replies import REPLIES, join_reply
from seven import DARK_NINE, DARK_P, FED_NINE, NINE, NINES, P

BUILT = Path(__file__).resolve().parent.parent / "target" / "programs"
ODD = ("", "x", "-1", "+2", "1 ", "1.0", "0000000001", "9" * 30, "999999999", "007")


class Runs:
    def __init__(self):
        self.seen, self.wrong, self.missing = Counter(), 0, set()

    def compare(self, name, arguments, data, expected):
        program = BUILT / name
        if not program.exists():
            self.missing.add(name)
            return
        reply = subprocess.run([program, *arguments], input=data, stdout=subprocess.PIPE, check=True).stdout
        self.seen[name + " " + kind(expected)] += 1
        if reply != expected:
            self.wrong += 1
            print(f"{name} {arguments} {data.hex()[:400]}: expected {expected[:60]!r}, got {reply[:60]!r}")

    def run(self, name, values, data):
        """The program with its numbers typed, and with the same before the file; answers the reply."""
        words = [str(v) for v in values]
        expected = REPLIES[name]([word.encode() for word in words], data)
        self.compare(name, words, data, expected)
        self.compare(name, [], numbers(*values) + data, REPLIES[name]([], numbers(*values) + data))
        return expected

    def odd(self, draw, name, values, data):
        """A word that is no number, one missing, or one too many; or the numbers cut short."""
        words = [str(v) for v in values]
        change = draw.randrange(3)
        if change == 0 and words:
            words[draw.randrange(len(words))] = draw.choice(ODD)
        elif change == 1 and len(words) > 1:
            words.pop()
        else:
            words.append(draw.choice(("1", "x")))
        self.compare(name, words, data, REPLIES[name]([word.encode() for word in words], data))
        cut = numbers(*values)[:draw.randrange(len(values) + 1)] + bytes([128] * draw.randrange(5))
        self.compare(name, [], cut, REPLIES[name]([], cut))


def by_hand(runs):
    """Document 01's files in every kind and what each program refuses: the file, a number out of its limits, one that can't be read, one too
    many."""
    for data in (*NINES.values(), DARK_NINE, FED_NINE, b"", NINE[:-1], NINE + b"x", FED_NINE[:-1], P):
        for name in ("curve", "worst", "page"):
            runs.compare(name, [], data, REPLIES[name]([], data))
            runs.compare(name, ["1"], data, REPLIES[name]([b"1"], data))
        for q in range(5):
            runs.run("rounds", (q,), data)
    for data in (BARE_SEVEN, BARE_DARK, b"", BARE_SEVEN[:-1], BARE_DARK + b"x", NINE, P):
        runs.compare("certify", [], data, REPLIES["certify"]([], data))
        runs.compare("certify", ["1"], data, REPLIES["certify"]([b"1"], data))
    orders = {
        "plan": ((2, 3, 9), (0, 3, 9), (2, 7, 9), (2, 3, 4_096), (2, 3, 4_097)),
        "ask": ((2, 3, 9), (2, 1, 9), (4, 4, 9)),
        "commit": ((2, 3, 9, 2, 7, 0, 0, 0), (2, 3, 9, 9, 0, 0, 0, 0), (2, 3, 9, 2, 6, 0, 0, 0), (2, 3, 9, 8, 0, 1, 0, 0), (2, 7, 9, 2, 7, 0, 0, 0)),
        "operator": ((2, 3, 9, 4_096), (2, 3, 4_096, 4_096), (2, 3, 0, 9), (2, 3, 9, 4_097), (4, 4, 9, 9)),
    }
    many = REPLIES["plan"]([b"2", b"12", b"1"], numbers(1, 30, 2, 1, 1, 1, 0) + bytes([0, 1]))
    runs.run("worst", (), many)
    runs.compare("join", ["no-such-file"] * 4, b"", join_reply([b""] * 4))
    runs.compare("join", [], P[:-1], join_reply([P[:-1]]))
    for name, each in orders.items():
        for values in each:
            for data in (P, DARK_P, P[:-1], NINE, b""):
                runs.run(name, values, data)


def some(runs, draw, folder):
    """An order and all that is asked of it, and of its placement."""
    n, r, pack = random_pack(draw, most=draw.choice([4, 6, 12]), extra=draw.choice([2, 1, -1]))
    s, k, b = random_order(draw, n, r, draw.choice([8, 40, 300]))
    placement = runs.run("plan", (s, k, b), pack)
    offer = runs.run("ask", (s, k, b), pack)
    counts = [int(v) for v in offer.split()[2:7]] if offer.startswith(b"offered") else [b, 0, 0, 0, 0]
    runs.run("commit", (s, k, b, *counts), pack)
    draw.shuffle(counts)
    runs.run("commit", (s, k, b, *counts), pack)
    runs.run("operator", (s, k, b, draw.choice([0, 1, 2_048, 4_096, 4_097])), pack)
    name, values = draw.choice((("plan", (s, k, b)), ("ask", (s, k, b)), ("commit", (s, k, b, *counts)), ("operator", (s, k, b, b))))
    runs.odd(draw, name, values, pack)
    files = [pack, random_pack(draw, most=6)[2], damaged(draw, pack)][:draw.randrange(1, 4)]
    paths = []
    for i, data in enumerate(files):
        path = Path(folder) / f"{i}.pack"
        path.write_bytes(data)
        paths.append(str(path))
    runs.compare("join", paths, b"", join_reply(files))
    runs.compare("join", [], pack, join_reply([pack]))
    bare = random_bare(draw, draw.choice([4, 60, 400]))
    certified = runs.run("certify", (), bare)
    runs.run("certify", (), damaged(draw, bare))
    runs.odd(draw, "certify", (), bare)
    runs.run("page", (), certified)
    if placement.startswith(b"refused"):
        return
    for data in (placement, of_kind(draw.choice((2, 3)), placement), damaged(draw, placement), small_fed(draw)):
        runs.run("curve", (), data)
        runs.run("page", (), data)
        if n <= 9:
            runs.run("worst", (), data)
        runs.run("rounds", (draw.randrange(5),), data)
    runs.odd(draw, draw.choice(("curve", "worst", "page")), (), placement)
    runs.odd(draw, "rounds", (2,), placement)


def main(count=1_000, seed=None):
    seed = int(seed) if seed else secrets.randbelow(10 ** 9)
    print(f"seed {seed}", flush=True)
    draw, runs, turns = random.Random(seed), Runs(), 0
    by_hand(runs)
    with tempfile.TemporaryDirectory() as folder:
        while sum(runs.seen.values()) < int(count) and turns < int(count):
            some(runs, draw, folder)
            turns += 1
    print(f"{sum(runs.seen.values())} cases, {runs.wrong} wrong;", dict(sorted(runs.seen.items())), "not built:", sorted(runs.missing))
    sys.exit(1 if runs.wrong else 0)


if __name__ == "__main__":
    main(*sys.argv[1:])
