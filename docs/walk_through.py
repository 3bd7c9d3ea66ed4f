"""Runs the commands of README that begin with `$ `, in their order and as they are written, and compares what each prints.

    python3 docs/walk_through.py [FOLDER]

FOLDER has the proved programs under their own names (target/programs where none is said). The indented lines below a command, up to
the next one or a line of prose, are what it prints.
"""
import os
import subprocess
import sys
import tempfile
from pathlib import Path

HOME = Path(__file__).resolve().parent.parent
INDENT = "    "


def steps(text):
    """The commands, each with what it is said to print."""
    found, open_step = [], None
    for line in text.splitlines():
        if line.startswith(INDENT + "$ "):
            open_step = (line[len(INDENT) + 2:], [])
            found.append(open_step)
        elif line.startswith(INDENT) and open_step:
            open_step[1].append(line[len(INDENT):])
        else:
            open_step = None
    return [(command, "".join(line + "\n" for line in lines)) for command, lines in found]


def run(folder, room):
    """How many commands were run, and how many printed something else."""
    places = os.pathsep.join([str(folder), os.environ["PATH"]])
    wrong, all_steps = 0, steps((HOME / "README.md").read_text(encoding="utf-8"))
    for name in ("examples", "certificate", "target"):
        (Path(room) / name).symlink_to(HOME / name)
    for command, expected in all_steps:
        done = subprocess.run(["sh", "-c", command], cwd=room, env={**os.environ, "PATH": places, "PYTHONDONTWRITEBYTECODE": "1"},
                              stdout=subprocess.PIPE, stderr=subprocess.STDOUT)
        if done.returncode or done.stdout.decode() != expected:
            wrong += 1
            print(f"$ {command}\nREADME says:\n{expected}it printed (status {done.returncode}):\n{done.stdout.decode()}")
    return len(all_steps), wrong


def main(folder=HOME / "target" / "programs"):
    with tempfile.TemporaryDirectory() as room:
        count, wrong = run(Path(folder).resolve(), room)
    print(f"README's walk-through: {count} commands, {wrong} wrong")
    return 1 if wrong or not count else 0


if __name__ == "__main__":
    sys.exit(main(*sys.argv[1:]))
