"""Fresh random logs as text on random placements through the built program `replay`; its replies are compared.

    python3 reference/run_logs.py [COUNT [SEED]]

COUNT cases in all (1,000 where none is said), on placements of kinds 2, 3, 5 and 6, some damaged; logs of all lengths up to one event
too many, with comments and blanks, some with an event out of order, of a node that is not there or in that state already, some with
a line that can't be read, some with bytes changed. The seed is fresh at each run and printed first. The program is the one that
`.ci/build` or `.ci/run` leaves, target/programs/replay.
"""
import random
import secrets
import sys
import tempfile
from pathlib import Path

from cases import damaged, of_kind, random_order, random_pack
from document01 import Refused, check_placement, plan
from feeders import of_feeders
from logs import replay_reply
from run_programs import Runs

SKIPPED = (b"", b" ", b"\t\r", b"#", b"# 1 2 down", b"   # a note")
UNREADABLE = (b"x", b"1", b"1 2", b"1 2 3", b"1 2 down up", b"1 2 Down", b"1 2 dow", b"1 2 downs", b"1 2down", b"-1 2 up", b"1 +2 up", b"1,2,up",
              b"4294967296 0 up", b"0 4294967296 up", b"99999999999999999999 0 up", b"1 2 up\x00", b"1 2 \xff", b"1 2 down\x0b", b"down 1 2")


def events(draw, units, size):
    """A good log of so many events."""
    time, down, log = draw.choice((0, 5, 4_294_960_000)), set(), []
    for _ in range(size):
        node = draw.randrange(units)
        log.append((time, node, node not in down))
        down ^= {node}
        time = min(time + draw.choice((0, 0, 1, 3)), 4_294_967_295)
    return log


def text_of(draw, log):
    """Its lines, with blanks, zeros in front, comments and lines that are skipped."""
    lines = []
    for time, node, down in log:
        gaps = [draw.choice((b" ", b"  ", b"\t", b" \r")) for _ in range(2)]
        words = [b"0" * draw.choice((0, 0, 0, 2, 9)) + b"%d" % value for value in (time, node)]
        line = draw.choice((b"", b"", b" ")) + words[0] + gaps[0] + words[1] + gaps[1] + (b"down" if down else b"up")
        lines.append(line + draw.choice((b"", b"", b"", b" ", b"\r", b"#", b" # so")))
        while draw.randrange(8) == 0:
            lines.append(draw.choice(SKIPPED))
    return lines


def some_log(draw, units):
    size = draw.choice((0, 1, 2, 5, 20, 60)) if draw.randrange(40) else draw.choice((2_047, 2_048, 2_049))
    log = events(draw, units, size)
    if log and draw.randrange(3) == 0:
        i = draw.randrange(len(log))
        time, node, down = log[i]
        log[i] = draw.choice(((max(time - 1, 0), node, down), (time, node, not down), (time, draw.choice((units, 254, 255, 256, 4_294_967_295)), down)))
    lines = text_of(draw, log)
    if draw.randrange(4) == 0:
        lines.insert(draw.randrange(len(lines) + 1), draw.choice(UNREADABLE))
    text = b"\n".join(lines) + draw.choice((b"", b"\n"))
    if draw.randrange(6) == 0 and text:
        text = damaged(draw, text)
    if draw.randrange(60) == 0:
        text += b"#" + b"x" * (131_072 - len(text) - 1 - draw.randrange(2))
    return text


def some(runs, draw, folder):
    n, r, pack = random_pack(draw, most=draw.choice((4, 6, 12)), extra=2)
    s, k, b = random_order(draw, n, r, draw.choice((8, 40, 300)))
    try:
        placement = plan(pack, s, k, b)[0]
    except Refused:
        return
    fed = of_feeders(draw, placement)
    for data in (placement, of_kind(draw.choice((2, 3)), placement), fed, draw.choice((fed, placement)), damaged(draw, fed)):
        try:
            units = check_placement(data)["units"]
        except Refused:
            units = n
        log = some_log(draw, units)
        path = Path(folder) / "a.log"
        path.write_bytes(log)
        runs.compare("replay", [str(path)], data, replay_reply([log], data))
    names = [str(path)] * draw.choice((0, 2, 3))
    runs.compare("replay", names, data, replay_reply([log] * len(names), data))


def main(count=1_000, seed=None):
    seed = int(seed) if seed else secrets.randbelow(10 ** 9)
    print(f"seed {seed}", flush=True)
    draw, runs = random.Random(seed), Runs()
    with tempfile.TemporaryDirectory() as folder:
        while sum(runs.seen.values()) < int(count) and not runs.missing:
            some(runs, draw, folder)
    print(f"{sum(runs.seen.values())} cases, {runs.wrong} wrong;", dict(sorted(runs.seen.items())), "not built:", sorted(runs.missing))
    sys.exit(1 if runs.wrong or runs.missing else 0)


if __name__ == "__main__":
    main(*sys.argv[1:])
