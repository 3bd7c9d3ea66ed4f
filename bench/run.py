"""Runs two folders of programs on the benchmark's inputs and prints how they compare, ours divided by the baseline's.

    python3 bench/run.py OURS BASELINE [--check NAME] [--plan NAME] [--join NAME] [--base-check NAME] [--base-plan NAME]
                           [--base-join NAME] [--runs N] [--only TEXT] [--net]

OURS has programs built by `rt` (target/programs), BASELINE those of cargo (bench/baseline/target/release). Each input is given
to both in turn, N times; a run is one whole process, its start included, and the two replies must be equal. The table has
the medians of user time and of user and system time together (of a process shorter than a clock tick the kernel often
counts all as one of the two), the instructions counted by callgrind, and those of `perf stat` where the machine counts
them. A column that can't be had here is left out. With --net what a run on an empty input takes, made in the same turns, is taken
off each number.
"""
import argparse
import os
import re
import shutil
import statistics
import subprocess
import sys
import tempfile
from pathlib import Path

from inputs import inputs

# callgrind counts every byte that a `rep` instruction stores: keep the C library's memset and memcpy to vector instructions
NO_REP = ":".join(f"glibc.cpu.x86_rep_{name}_threshold=1000000000" for name in ("stosb", "movsb"))


def words_for(program, data):
    """The words that run the program, where it runs here."""
    if not program.is_file():
        sys.exit(f"there is no program {program}")
    if subprocess.run([str(program)], input=data, capture_output=True).returncode:
        sys.exit(f"{program} does not run here")
    return [str(program)]


def run(words, source, reply):
    """Runs a program from one file to another. Its user time, and with its system time, in seconds."""
    files = [(os.POSIX_SPAWN_OPEN, 0, source, os.O_RDONLY, 0),
             (os.POSIX_SPAWN_OPEN, 1, reply, os.O_WRONLY | os.O_CREAT | os.O_TRUNC, 0o600)]
    child = os.posix_spawn(words[0], words, os.environ, file_actions=files)
    _, status, usage = os.wait4(child, 0)
    if status != 0:
        sys.exit(f"{words[-1]} ended with status {status} on {Path(source).name}")
    return usage.ru_utime, usage.ru_utime + usage.ru_stime


def counted(command, source, pattern):
    """The number that the pattern finds in what the command says, or None."""
    if shutil.which(command[0]) is None:
        return None
    with open(source, "rb") as data:
        done = subprocess.run(command, stdin=data, stdout=subprocess.DEVNULL, stderr=subprocess.PIPE,
                              env={**os.environ, "GLIBC_TUNABLES": NO_REP})
    found = re.search(pattern, done.stderr.decode(errors="replace"), re.MULTILINE)
    return int(found.group(1).replace(",", "")) if found else None


def callgrind(words, source):
    command = ["valgrind", "--tool=callgrind", "--callgrind-out-file=/dev/null"]
    return counted(command + words, source, r"Collected : (\d+)")


def perf(words, source):
    command = ["perf", "stat", "-x,", "-e", "instructions:u"]
    return counted(command + words, source, r"^(\d+),.*instructions")


def timed(pair, source, runs, net):
    """The medians of both programs' times: of user time, and of all; less those of an empty input where `net` is."""
    times, starts = [[], []], [[], []]
    with tempfile.TemporaryDirectory() as folder:
        replies = [os.path.join(folder, name) for name in ("ours", "baseline")]
        for _ in range(runs):
            for words, reply, taken, start in zip(pair, replies, times, starts):
                start.append(run(words, os.devnull, reply) if net else (0, 0))
                taken.append(run(words, source, reply))
        ours, base = (Path(reply).read_bytes() for reply in replies)
    if ours != base:
        sys.exit(f"{Path(source).name}: the replies differ: {ours[:60]!r} and {base[:60]!r}")
    middle = [[[1e6 * statistics.median(both[i] for both in taken) for taken in which] for i in range(2)] for which in (times, starts)]
    return [[took - began for took, began in zip(*rows)] for rows in zip(*middle)]


def table(programs, folder, runs, only, net):
    counters = {"callgrind Ir": callgrind, "perf instr": perf}
    sources = []
    for name, data in inputs():
        sources.append(os.path.join(folder, name))
        Path(sources[-1]).write_bytes(data)
    for title in list(counters):
        if counters[title](programs["check"][1], sources[0]) is None:
            del counters[title]
    titles = ["user us", "user+sys us"] + list(counters)
    print(" | ".join([" " * 16] + [f"{title:^33}" for title in titles]))
    print(" | ".join([f"{'input':16}"] + [f"{'ours':>12} {'baseline':>12} {'ratio':>7}" for _ in titles]))
    for source in sources:
        name = Path(source).name
        if only in name:
            pair = programs[name.split("-")[0]]
            rows = timed(pair, source, runs, net)
            rows += [[count(words, source) - (count(words, os.devnull) if net else 0) for words in pair] for count in counters.values()]
            cells = [f"{ours:12,.0f} {base:12,.0f} {ours / base if base else 0:7.2f}" for ours, base in rows]
            print(" | ".join([f"{name:16}"] + cells), flush=True)


def main():
    options = argparse.ArgumentParser(description=__doc__.splitlines()[0])
    options.add_argument("ours", type=Path)
    options.add_argument("baseline", type=Path)
    options.add_argument("--check", default="check", help="our program `check`")
    options.add_argument("--plan", default="plan", help="our program `plan`")
    options.add_argument("--join", default="join_bench", help="our program that joins three packs")
    options.add_argument("--base-check", default="check", help="the baseline's `check`, or check_sorted")
    options.add_argument("--base-plan", default="plan", help="the baseline's `plan`, or plan_candidates")
    options.add_argument("--base-join", default="join", help="the baseline's program that joins three packs")
    options.add_argument("--runs", type=int, default=11)
    options.add_argument("--only", default="", help="only inputs with this text in their names")
    options.add_argument("--net", action="store_true", help="less what a run on an empty input takes")
    given = options.parse_args()
    nine = {name: data for name, data in inputs() if name.endswith("-nine")}
    programs = {kind: [words_for((given.ours / ours).resolve(), nine[f"{kind}-nine"]),
                       words_for((given.baseline / base).resolve(), nine[f"{kind}-nine"])]
                for kind, ours, base in [("check", given.check, given.base_check), ("plan", given.plan, given.base_plan),
                                         ("join", given.join, given.base_join)]}
    with tempfile.TemporaryDirectory() as folder:
        table(programs, folder, given.runs, given.only, given.net)


if __name__ == "__main__":
    main()
