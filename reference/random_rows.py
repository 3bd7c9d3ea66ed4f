"""Random bare rows as text, run through the built programs `rows` and `listing` and compared with the independent implementation's replies.

    python3 reference/random_rows.py [COUNT [SEED]]

COUNT cases in all (1,000 where none is said): texts of random bare rows, with comments, blanks and zeros in front put in at random, each
fault in turn, texts damaged by a byte, and the longest that are taken; random files of bare rows, some padded, some damaged, and what is
printed of them read back. The seed is fresh at each run and printed first, so that a run can be repeated. The programs are those that
`.ci/build` or `.ci/run` leaves, target/programs/rows and target/programs/listing.
"""
import sys

from bare import random_bare
from cases import damaged, padded
from certify import bare_bytes, check_bare
from random_tables import run_all, run_faulty, written_otherwise
from rows_text import listing_reply, rows_reply, rows_text
from table import TEXT_MOST

# of refusals 1, 4, 6, 15, 23 and 24: what a line becomes, where it is to be another
FAULTS = ["", "rows 1 2", "rows 256 2", "rows 7 6", "rows 9", "out 255", "out 1 1", "out 0", "out", "out 0 1", "order 0 1", "order 1 0", "order 2 1",
          "order 2", "order 1 1 1", "order 1 255", "order 6 6", "order", "0 1", "1 0", "0 0", "0 255", "0 1 2", "0 1 2 3", "0 1 2 3 4",
          "0 1 2 3 4 5", "000000000 1", "99999999 1", "x", "0,1", "\x00", "-1 2", "order" + " 1" * 255, "order" + " 1" * 256, "row 7 3", "Order 1 1",
          " order 1 1", "table 7 3", "mu 1"]


def run_some(programs, draw):
    """Bare rows, their text, and both with faults."""
    bare = random_bare(draw, draw.choice([1, 4, 12, 60]))
    text = programs.run("listing", bare)
    assert text == rows_text(check_bare(bare))
    assert programs.run("rows", text) == bare
    numbers = 7 + len(check_bare(bare)["dark"])
    assert programs.run("listing", draw.choice(list(padded(bare, numbers)))) == text
    programs.run("listing", damaged(draw, bare))
    other = written_otherwise(draw, text)
    assert programs.run("rows", other) == bare
    for start in (text, other):
        run_faulty(programs, draw, "rows", start, FAULTS)


def run_longest(programs, draw):
    """Texts about as long as `rows` holds, 4,096 rows and one more, and nodes out of service up to all of them."""
    for size in (TEXT_MOST - 1, TEXT_MOST, TEXT_MOST + 1):
        programs.run("rows", b"rows 3 2\norder 1 1\n0 1\n#" + b"." * (size - 24))
    many = b"rows 9 2\norder 2 3\n" + b"".join(b"%d %d\n" % tuple(sorted(draw.sample(range(9), 2))) for _ in range(4_096))
    assert programs.run("rows", programs.run("listing", programs.run("rows", many))) == programs.run("rows", many)
    programs.run("rows", many + b"0 1")
    longest = bare_bytes(255, 5, [], 1, 254, [tuple(range(250, 255))] * 4_096)
    for data in (longest, longest + b"0" * 12_000, b"", next(padded(longest, 7))):
        programs.run("rows", programs.run("listing", data))
    for n in (3, 255):
        for dark in (n - 2, n - 1, n):
            out = b"out" + b"".join(b" %d" % v for v in range(n - dark, n))
            for row in (b"0 1\n", b""):
                programs.run("rows", b"rows %d 2\n" % n + out + b"\norder 1 1\n" + row)


if __name__ == "__main__":
    run_all({"rows": rows_reply, "listing": listing_reply}, run_longest, run_some, *sys.argv[1:])
