"""What each program is run on in the gate and what it must write: the files stdin, args, data/ and stdout of its crate.

    python3 reference/program_files.py CRATES
"""
import sys
from pathlib import Path

from bare import BARE_DARK
from cases import padded
from document01 import check_reply
from logs import replay_reply
from replies import REPLIES, join_reply
from rows_text import listing_reply
from seven import DARK_P, FED_NINE, NINE, P

# the crate of each program, its arguments, and standard input
RUNS = {
    "curve": ((), FED_NINE),
    "worst": ((), FED_NINE),
    "rounds": (("2",), NINE),
    "page": ((), NINE),
    "plan": ((), bytes([2, 3, 9]) + P),
    "ask": (("2", "3", "9"), P),
    "commit": (("2", "3", "9", "9", "0", "0", "0", "0"), P),
    "certify": ((), BARE_DARK),
    "operator": (("2", "3", "9", "4096"), P),
}
# every number of the head in two groups
LISTED = list(padded(BARE_DARK, 9))[9]
FILES = {"first.pack": P, "second.pack": DARK_P, "third.pack": P}
LOG = b"""# time node down|up
7 0 down

7 1 down
60 3 down  # the third
75 0 up
80 0 down
"""


def store(folder, arguments, data, reply, files=()):
    folder.mkdir(parents=True, exist_ok=True)
    if arguments:
        (folder / "args").write_text("".join(word + "\n" for word in arguments))
    if data is not None:
        (folder / "stdin").write_bytes(data)
    for name, content in dict(files).items():
        (folder / "data").mkdir(exist_ok=True)
        (folder / "data" / name).write_bytes(content)
    (folder / "stdout").write_bytes(reply)


def main(crates):
    for name, (arguments, data) in RUNS.items():
        reply = REPLIES[name]([word.encode() for word in arguments], data)
        store(Path(crates) / f"{name}_main", arguments, data, reply)
    store(Path(crates) / "check_main", (), NINE, check_reply(NINE))
    store(Path(crates) / "listing_main", (), LISTED, listing_reply(LISTED))
    store(Path(crates) / "join_main", tuple(FILES), None, join_reply(list(FILES.values())), FILES)
    store(Path(crates) / "replay_main", ("storm.log",), NINE, replay_reply([LOG], NINE), {"storm.log": LOG})


if __name__ == "__main__":
    main(*sys.argv[1:])
