"""Fresh random cases, run through the built programs and compared with the independent implementation's replies.

    python3 reference/random_cases.py [COUNT [SEED]]

COUNT cases in all (2,000 where none is said): orders on random packs of kinds 1 and 4 for `plan`, with lists of all sizes, some
damaged, and the placements they give for `check`, as kinds 5, 3 and 2, some damaged or with a row that names a node out of service,
and as kind 6 on random feeders, some damaged, with another figure or with two nodes of a row on one feeder.
The seed is fresh at each run and printed first, so that a run can be repeated. The programs are those
that `.ci/build` or `.ci/run` leaves, target/programs/check and target/programs/plan.
"""
import random
import secrets
import sys
from pathlib import Path

from cases import damaged, of_kind, order, other_figure, random_order, random_pack
from dark import row_of_dark
from document01 import check_placement
from feeders import of_feeders, two_on_one
from programs import Programs

BUILT = Path(__file__).resolve().parent.parent / "target" / "programs"


def run_some(programs, draw):
    """An order and its placement, and the same damaged."""
    n, r, pack = random_pack(draw, most=draw.choice([4, 6, 12]), extra=draw.choice([2, 1, -1]))
    s, k, b = random_order(draw, n, r, draw.choice([8, 40, 400]))
    data = order(s, k, b) + pack
    placement = programs.run("plan", data)
    programs.run("plan", damaged(draw, data))
    if placement.startswith(b"refused"):
        return
    programs.run("check", placement)
    for kind in (3, 2):
        programs.run("check", of_kind(kind, placement))
    fed = of_feeders(draw, placement)
    for data in (fed, damaged(draw, fed), damaged(draw, fed), other_figure(draw, fed), two_on_one(draw, fed)):
        programs.run("check", data)
    programs.run("check", damaged(draw, placement))
    programs.run("check", damaged(draw, placement))
    programs.run("check", other_figure(draw, placement))
    if check_placement(placement)["dark"]:
        programs.run("check", row_of_dark(draw, placement))
        programs.run("plan", order(s, k, b) + row_of_dark(draw, pack))


def main(count=2_000, seed=None):
    seed = int(seed) if seed else secrets.randbelow(10 ** 9)
    print(f"seed {seed}", flush=True)
    draw, programs = random.Random(seed), Programs(BUILT / "check", BUILT / "plan")
    while sum(programs.seen.values()) < int(count):
        run_some(programs, draw)
    sys.exit(programs.tell())


if __name__ == "__main__":
    main(*sys.argv[1:])
