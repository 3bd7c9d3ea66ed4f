"""Random block tables, run through the built programs `pack` and `table` and compared with the independent implementation's replies.

    python3 reference/random_tables.py [COUNT [SEED]]

COUNT cases in all (1,000 where none is said): texts of random packs, with comments, blanks and zeros in front put in at random, each
fault in turn, texts damaged by a byte, and the longest that are taken; random packs of kinds 1 and 4, some damaged, and what is printed
of them read back. The seed is fresh at each run and printed first, so that a run can be repeated. The programs are those that `.ci/build`
or `.ci/run` leaves, target/programs/pack and target/programs/table.
"""
import random
import secrets
import sys
from pathlib import Path

from cases import damaged, random_pack
from programs import Programs
from table import TEXT_MOST, pack_reply, table_reply

BUILT = Path(__file__).resolve().parent.parent / "target" / "programs"

# of refusals 1, 4, 6, 7, 15, 23 and 24: what a line becomes, where it is to be another
FAULTS = ["", "table 1 2", "table 256 2", "table 7 6", "table 9", "out 255", "out 1 1", "out 0", "out", "mu 0", "mu 4097", "mu", "mu 1 1",
          "mu 1", "0 1", "1 0", "0 0", "0 255", "0 1 2", "0 1 2 3", "0 1 2 3 4", "0 1 2 3 4 5", "000000000 1", "99999999 1", "x", "0,1", "\x00",
          "-1 2", "mu" + " 1" * 255, "mu" + " 1" * 256, "tables 7 3", "Mu 1", " mu 1"]


def written_otherwise(draw, text):
    """The same table in other blanks, with comments, empty lines and zeros in front of its numbers."""
    lines = []
    for line in text.decode().split("\n"):
        parts = line.split(" ")
        blank = draw.choice([" ", "  ", "\t", " \r"])
        zeros = "0" * draw.randint(0, 3)
        line = parts[0] + "".join(blank + (zeros + part if draw.random() < 0.2 else part) for part in parts[1:])
        lines += [""] * draw.choice([0, 0, 0, 1]) + ["# " + line] * draw.choice([0, 0, 0, 1])
        lines.append(line + draw.choice(["", "", "\r", " #", "# mu 1"]))
    return "\n".join(lines).encode()


def faulty(draw, text, faults):
    """The text with a line that is a fault, left out, or twice."""
    lines = text.split(b"\n")
    at = draw.randrange(min(4, len(lines))) if draw.random() < 0.5 else draw.randrange(len(lines))
    choice = draw.randrange(5)
    if choice == 0:
        del lines[at]
    elif choice == 1:
        lines.insert(draw.randrange(len(lines) + 1), lines[at])
    else:
        lines[at] = draw.choice(faults).encode()
    return b"\n".join(lines)


def run_faulty(programs, draw, name, text, faults):
    for data in (faulty(draw, text, faults), faulty(draw, text, faults), damaged(draw, text)):
        programs.run(name, data)


def run_some(programs, draw):
    """A pack, its text, and both with faults."""
    _, _, pack = random_pack(draw, most=draw.choice([4, 6, 12]), extra=draw.choice([2, 1, -1]))
    text = programs.run("table", pack)
    programs.run("table", damaged(draw, pack))
    if text.startswith(b"refused"):
        programs.run("pack", text)
        return
    again = programs.run("pack", text)
    assert programs.run("table", again) == text
    other = written_otherwise(draw, text)
    assert programs.run("pack", other) == again
    for start in (text, other):
        run_faulty(programs, draw, "pack", start, FAULTS)


def run_longest(programs, draw):
    """Texts about as long as `pack` holds, and one of 4,096 blocks and more."""
    for size in (TEXT_MOST - 1, TEXT_MOST, TEXT_MOST + 1):
        programs.run("pack", b"table 2 2\nmu 1\n0 1\nmu 1\n#" + b"." * (size - 25))
    many = b"table 9 2\nmu 4096\n" + b"".join(b"%d %d\n" % tuple(sorted(draw.sample(range(9), 2))) for _ in range(4_096)) + b"mu 1\n"
    programs.run("table", programs.run("pack", many))
    programs.run("pack", many + b"0 1")


def run_all(replies, longest, some, count=1_000, seed=None):
    """Runs the built programs of these names, whose replies are expected: the longest inputs, then some at a time."""
    seed = int(seed) if seed else secrets.randbelow(10 ** 9)
    print(f"seed {seed}", flush=True)
    draw, programs = random.Random(seed), Programs(BUILT / "check", BUILT / "plan")
    programs.programs.update({name: (BUILT / name, reply) for name, reply in replies.items()})
    longest(programs, draw)
    while sum(programs.seen.values()) < int(count):
        some(programs, draw)
    sys.exit(programs.tell())


if __name__ == "__main__":
    run_all({"pack": pack_reply, "table": table_reply}, run_longest, run_some, *sys.argv[1:])
