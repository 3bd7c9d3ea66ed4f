"""Runs the baseline's programs on the inputs of reference/cases.py, and on random packs joined, and compares the replies byte for byte.

    python3 bench/test_baseline.py

Needs the baseline built (bench/README.md).
"""
import random
import subprocess
import sys
from pathlib import Path

REPOSITORY = Path(__file__).resolve().parent.parent
sys.path.insert(0, str(REPOSITORY / "reference"))

from cases import P, check_inputs, damaged, plan_inputs, random_pack  # noqa: E402
from chunks import join_reply, three_packs  # noqa: E402
from document01 import check_reply, plan_reply  # noqa: E402
from replies import REPLIES  # noqa: E402

PROGRAMS = REPOSITORY / "bench" / "baseline" / "target" / "release"
VECTORS = {"check": "check", "check_sorted": "check", "plan": "plan", "plan_candidates": "plan", "join": "join", "curve": "curve"}


def join_inputs():
    """Three random packs, of one r where there are such, and the same with some damage."""
    draw = random.Random(8)
    packs = [random_pack(draw) for _ in range(200)]
    yield three_packs(P, P, P)
    for _ in range(400):
        r = draw.choice([2, 3, 4, 5, None])
        data = three_packs(*(draw.choice([pack for _, own, pack in packs if r in (own, None)]) for _ in range(3)))
        yield data
        yield damaged(draw, data)


def pairs_of_replies():
    """The pairs of input and reply of each program."""
    return {"check": [(data, check_reply(data)) for data in check_inputs()],
            "plan": [(data, plan_reply(data)) for data in plan_inputs()],
            "join": [(data, join_reply(data)) for data in join_inputs()],
            "curve": [(data, REPLIES["curve"]([], data)) for data in check_inputs()]}


def differences(program, pairs):
    for index, (data, reply) in enumerate(pairs):
        got = subprocess.run([program], input=data, stdout=subprocess.PIPE, check=True).stdout
        if got != reply:
            yield f"{program.name}: vector {index}: {got[:60]!r} for {reply[:60]!r}"


def main():
    wrong, replies = 0, pairs_of_replies()
    for program, kind in VECTORS.items():
        pairs = replies[kind]
        found = list(differences(PROGRAMS / program, pairs))
        print(f"{program}: {len(pairs) - len(found)} of {len(pairs)} replies agree")
        print("".join(line + "\n" for line in found[:10]), end="")
        wrong += len(found)
    return 1 if wrong else 0


if __name__ == "__main__":
    sys.exit(main())
