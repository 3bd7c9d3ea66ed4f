"""Makes the vectors of every call: its input, numbers and lent slices, and what document01.py says that it answers and leaves.

    python3 reference/vectors.py FOLDER        writes FOLDER/stdin, which vectors_test reads, and FOLDER/stdout
    python3 reference/vectors.py FOLDER N      shows the N-th call too

Two runs write the same files.
"""
import sys
from pathlib import Path

from script import Script
from vectors_failures import replay_vectors, rounds_vectors, worst_vectors
from vectors_files import (crowding_vectors, curve_vectors, number_vectors, padded_vectors, page_vectors, placement_vectors,
                           small_files)
from vectors_packs import certify_vectors, commit_vectors, join_vectors, operator_vectors, plan_vectors, published_vectors


def script_of_all():
    script = Script()
    for vectors in (number_vectors, small_files, placement_vectors, curve_vectors, join_vectors, plan_vectors, operator_vectors, commit_vectors,
                    worst_vectors, rounds_vectors, replay_vectors, page_vectors, padded_vectors, crowding_vectors, published_vectors, certify_vectors):
        vectors(script)
    return script


def main(folder, index=None):
    script = script_of_all()
    (Path(folder) / "stdin").write_bytes(script.file)
    (Path(folder) / "stdout").write_text("".join(script.lines()))
    if index:
        name, own, data, given = script.calls[int(index) - 1]
        print(f"{name} {own} on {len(data)} bytes {data.hex()} is to answer {given}")


if __name__ == "__main__":
    main(*sys.argv[1:])
