"""Certifies the placements of other systems, and writes docs/COMPARISON.md's table and docs/comparison.svg.

    .ci/build vectors_test                         # the proved calls, in target/programs/vectors_test
    python3 comparison/compare.py                  # runs them on every placement, then writes both files
    python3 comparison/compare.py --check          # runs them, and says where a file differs from what would be written

Each placement goes as bare rows through the proved call `certify`, the certified placement through `check_placement` and, where the sets
are few enough, through `worst_case`, and the order through `plan`; vectors_test compares what they answer and write with the
independent implementation's figures, byte for byte, and those are what is printed. Two runs give the same files.
"""
import random
import subprocess
import sys
from math import comb
from pathlib import Path

ROOT = Path(__file__).resolve().parent.parent
sys.path[:0] = [str(ROOT / "reference"), str(ROOT / "packings"), str(ROOT / "comparison")]

import document01 as reference  # noqa: E402
import generators  # noqa: E402
from certify import bare_bytes  # noqa: E402
from check_packings import pack_bytes  # noqa: E402
from constructions import catalogue  # noqa: E402
from script import Script  # noqa: E402
from vector_calls import call_certify, call_check_placement, call_plan, call_worst, room_for  # noqa: E402

WIDTH = 6  # the scatter width of the copysets, [LV]'s own example
SEED = 2026
MOST_SETS = 16_777_216

# name of the published packing that the plan is made from; s, k, b. The last is a case of [LGR], figure 9a.
ESTATES = [("sts15", 2, 3, 35), ("sts15", 3, 4, 70), ("sts69", 2, 3, 230), ("sts69", 3, 5, 782), ("pairs71", 2, 2, 2_400)]


def schemes(n, r, b):
    """(name, rows) of each system whose placements fit n, r and b."""
    def drawn():
        return random.Random(SEED)
    yield "RAND", generators.rand(drawn(), n, r, b)
    yield "copysets", generators.copysets(drawn(), n, r, b, WIDTH if r > 2 else WIDTH // 2)
    if r == 3:
        yield "elastic copysets", generators.elastic(drawn(), n, b, WIDTH)
    yield "PTN", generators.partition(n, r, b)
    yield "MinMax", generators.min_max(drawn(), n, r, b)
    yield "MinRand", generators.min_rand(drawn(), n, r, b)


def exact(script, n, k, b):
    """The exact worst case of the placement that was read, or None where there are too many sets."""
    if comb(n, k) * b > MOST_SETS:
        return None
    call_worst(script, k)
    return script.calls[-1][3][1]


def results(script):
    """(estate, scheme, layer, lambda, F, exact) of each placement, the planned one last."""
    packings = {name: (n, r, x, rows) for name, _, n, r, x, rows in catalogue()}
    for name, s, k, b in ESTATES:
        n, r, x, blocks = packings[name]
        files = []
        for scheme, rows in schemes(n, r, b):
            script.read(bare_bytes(n, r, [], s, k, rows))
            files.append((scheme, call_certify(script, room_for(b, r))))
        script.read(pack_bytes(n, r, x, blocks))
        files.append(("planned", call_plan(script, s, k, b, s * (b + 1), room_for(b, r))))
        for scheme, file in files:
            script.read(file)
            call_check_placement(script)
            p = reference.check_placement(file)
            used = [f"{y}: {bound}" for y, (bound, own) in enumerate(p["layers"]) if own]
            yield (name, n, r, s, k, b), scheme, ", ".join(used), p["F"], exact(script, n, k, b)


def prove(script):
    """What the proved calls say of the same: vectors_test prints the counts of vectors that agree, and of none that do not."""
    run = subprocess.run([ROOT / "target/programs/vectors_test"], input=bytes(script.file), capture_output=True, check=True)
    if run.stdout.decode() != "".join(script.lines()):
        sys.exit("the proved calls answer otherwise:\n" + run.stdout.decode())


def table(found):
    yield "| n, r | s, k, b | placement | layer: lambda | F | exact |"
    yield "|---|---|---|---|---|---|"
    for (name, n, r, s, k, b), scheme, used, figure, worst in found:
        source = f"planned from `{name}`" if scheme == "planned" else scheme
        yield f"| {n}, {r} | {s}, {k}, {b} | {source} | {used} | {figure} | {'–' if worst is None else worst} |"


def picture(found):
    """A bar for each placement, F of b filled, and a line at the exact worst case where there is one."""
    line, left, width = 18, 190, 420
    estates = list(dict.fromkeys(estate for estate, *_ in found))
    height = line * (len(found) + 2 * len(estates)) + 10
    yield f'<svg xmlns="http://www.w3.org/2000/svg" viewBox="0 0 {left + width + 90} {height}" font-family="sans-serif" font-size="12">'
    yield f'<rect width="100%" height="100%" fill="white"/>'
    y = 0
    for estate in estates:
        name, n, r, s, k, b = estate
        y += 2 * line
        yield f'<text x="10" y="{y - 6}" font-weight="bold">n {n}, r {r}, s {s}, k {k}, b {b}</text>'
        for own, scheme, _, figure, worst in found:
            if own != estate:
                continue
            fill = "#2b6cb0" if scheme == "planned" else "#718096"
            yield f'<text x="{left - 8}" y="{y + 13}" text-anchor="end">{scheme}</text>'
            yield f'<rect x="{left}" y="{y + 3}" width="{width}" height="{line - 5}" fill="#edf2f7"/>'
            yield f'<rect x="{left}" y="{y + 3}" width="{round(width * figure / b)}" height="{line - 5}" fill="{fill}"/>'
            if worst is not None:
                at = left + round(width * worst / b)
                yield f'<line x1="{at}" y1="{y + 1}" x2="{at}" y2="{y + line}" stroke="#c53030" stroke-width="2"/>'
            yield f'<text x="{left + width + 8}" y="{y + 13}">{figure}{"" if worst is None else f" / {worst}"}</text>'
            y += line
    yield "</svg>"


def with_table(text, lines):
    """The document with the table between its two marks."""
    start, end = "<!-- table -->\n", "<!-- end -->\n"
    before, rest = text.split(start)
    return before + start + "\n".join(lines) + "\n" + end + rest.split(end)[1]


def main(check):
    script = Script()
    found = list(results(script))
    prove(script)
    page = ROOT / "docs/COMPARISON.md"
    made = {page: with_table(page.read_text(), table(found)), ROOT / "docs/comparison.svg": "\n".join(picture(found)) + "\n"}
    for path, text in made.items():
        if check and path.read_text() != text:
            sys.exit(f"{path.name} differs: run comparison/compare.py")
        path.write_text(text)
    print(f"{len(found)} placements certified by the proved calls")


if __name__ == "__main__":
    main("--check" in sys.argv[1:])
