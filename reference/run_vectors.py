"""Runs the built programs on the inputs of cases.py through standard input and output, and compares their replies.

    python3 reference/run_vectors.py CHECK PLAN [EVERY]

CHECK and PLAN are the programs; EVERY n takes each n-th input.
"""
import sys
from itertools import islice

from cases import check_inputs, plan_inputs
from programs import Programs


def main(check, plan, every=1):
    programs = Programs(check, plan)
    for name, inputs in (("check", check_inputs()), ("plan", plan_inputs())):
        for data in islice(inputs, 0, None, int(every)):
            programs.run(name, data)
    sys.exit(programs.tell())


if __name__ == "__main__":
    main(*sys.argv[1:])
