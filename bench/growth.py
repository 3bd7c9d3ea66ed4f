"""How the cost of each call grows: a table, and one picture (SVG) of it.

    python3 bench/growth.py VECTORS_TEST [PICTURE.svg]

VECTORS_TEST is our test program (target/programs/vectors_test). Each call is counted by callgrind at five sizes of what it should grow
with, the test program's own work taken off: many vectors of the call less none, and less as many of a call that does nothing. What a
call on a placement does besides checking it is told from the check, which has its own line (but for `replay`, whose placement is small). In the picture all lines begin at (1, 1):
to the right how many times the smallest size, upwards how many times the smallest cost, both in doublings, and a thin line where the
two are equal. A line below it grows more slowly than what it stands for.
"""
import random
import subprocess
import sys
import tempfile
from math import comb, log2
from pathlib import Path

from run import callgrind, words_for

sys.path.insert(0, str(Path(__file__).resolve().parent.parent / "reference"))
from cabinet_page import page  # noqa: E402
from cases import order, placement_of  # noqa: E402
from document01 import check_placement, check_reply, curve, plan_reply, read_number  # noqa: E402
from inputs import NODES, apart, even_sizes, pack, placement  # noqa: E402
from replay import replay  # noqa: E402
from rounds import rounds  # noqa: E402
from script import FILLS, Script  # noqa: E402
from worst import worst_case  # noqa: E402

TURNS = 6
SIZES = [256, 512, 1024, 2048, 4096]
COLOURS = ["#0b6e99", "#b35c00", "#2f7d32", "#8e24aa", "#c62828", "#455a64", "#6d4c41", "#00838f"]


def counted(words, folder, data, call):
    """Instructions of one call: `call` puts its vectors into a script over the data."""
    found = []
    for turns in (TURNS, 0):
        script = Script()
        script.read(data)
        for _ in range(turns):
            call(script)
        source = Path(folder) / "script"
        source.write_bytes(bytes(script.file))
        with open(source, "rb") as file:
            told = subprocess.run(words, stdin=file, capture_output=True, check=True).stdout.decode()
        assert told.strip() == "".join(script.lines()).strip(), told
        found.append(callgrind(words, str(source)))
    return (found[0] - found[1]) / TURNS


def idle(room, size):
    """A call that leaves its output, of which `size` bytes are compared."""
    def call(to):
        fill = FILLS[len(to.calls) % 2]
        to.call("read_number", [0], [0, *read_number(to.input, 0)], room=room, written=bytes([fill]) * size)
    return call


def head(p):
    """What the call `check_placement` answers."""
    return [0, *(p[name] for name in ("kind", "n", "r", "s", "k", "b", "F", "at")), *(v for bound, rows in p["layers"] for v in (bound, len(rows)))]


def checked(data):
    """The check of a placement, to be taken off."""
    return lambda to: to.call("check_placement", [], head(check_placement(data)))


def one_layer(draw, n, r, s, k, b):
    """b random rows in layer s-1, under the least bound."""
    return placement_of(3, n, r, s, k, [[] for _ in range(s - 1)] + [[tuple(sorted(draw.sample(range(n), r))) for _ in range(b)]])


def programs():
    draw = random.Random(5)
    for b in SIZES:
        data = placement(draw, NODES, 5, 8, even_sizes(b, 5))
        text = check_reply(data)
        yield "`check`", "b", b, data, lambda to, text=text: to.call("check_reply", [], [0, len(text)], room=200, written=text), idle(200, len(text))
    blocks = pack([(1, apart(7, 5))] * 5, NODES, 5)
    for b in SIZES:
        data = order(5, 6, b) + blocks
        text = plan_reply(data)
        room, work = 20_928, 20_485
        yield ("`plan`, seven blocks a layer", "b", b, data,
               lambda to, text=text: to.call("plan_reply", [], [0, len(text)], work=work, free=work, room=room, written=text), idle(room, len(text)))
    for b in SIZES:
        data = placement(draw, NODES, 5, 8, even_sizes(b, 5))
        text = page(data)
        yield "`page`", "b", b, data, lambda to, text=text: to.call("page", [], [0, len(text)], room=len(text), written=text), idle(len(text), len(text))


def calls():
    draw = random.Random(6)
    for n in 16, 32, 64, 128, 255:
        data = one_layer(draw, n, 5, 5, 8, 64)
        figures = curve(data)
        written = b"".join(v.to_bytes(2, "little") for v in figures)
        yield ("`curve`", "n - s", n - 5, data, lambda to, f=written: to.call("curve", [], [0, len(f) // 2], room=len(f), written=f, work=len(f) // 2, free=len(f) // 2),
               checked(data))
    for n, k, b in (10, 3, 64), (12, 4, 64), (14, 5, 64), (16, 6, 64), (18, 7, 64):
        data = one_layer(draw, n, 4, 3, k, b)
        number, nodes = worst_case(data)
        yield ("`worst_case`", "C(n,k) × b", comb(n, k) * b, data,
               lambda to, a=number, s=nodes: to.call("worst_case", [], [0, a], room=255, written=bytes(s)), checked(data))
    for b in 16, 32, 64, 128, 256:
        data = one_layer(draw, 10, 5, 3, 5, b)
        [number] = rounds(data, 3)
        yield "`rounds`, n = 10, q = 3", "b", b, data, lambda to, a=number: to.call("rounds", [3], [0, a]), checked(data)
    data = one_layer(draw, NODES, 5, 3, 8, 128)
    down, events = set(), []
    for time in range(2_000):
        node = draw.randrange(NODES)
        events.append((time, node, node not in down))
        down ^= {node}
    for size in 125, 250, 500, 1_000, 2_000:
        log = b"".join(time.to_bytes(4, "little") + bytes([node, into]) for time, node, into in events[:size])
        number, event = replay(data, events[:size])
        yield "`replay`", "events", size, data + log, lambda to, a=[0, number, 1, event], n=len(data): to.call("replay", [n], a), None


def svg(series):
    """The picture: a line for each call, in doublings of its size and of its cost."""
    wide, high, left, top = 900, 560, 70, 30
    across = max(log2(points[-1][0] / points[0][0]) for _, _, points in series)
    up = max(log2(points[-1][1] / points[0][1]) for _, _, points in series)
    unit = min((wide - left - 330) / across, (high - top - 60) / max(up, across))

    def at(x, y):
        return left + unit * x, high - 50 - unit * y

    lines = [f'<svg xmlns="http://www.w3.org/2000/svg" width="{wide}" height="{high}" font-family="sans-serif" font-size="13">',
             f'<rect width="{wide}" height="{high}" fill="white"/>']
    for i in range(int(max(across, up)) + 1):
        if i <= across:
            x, y = at(i, 0)
            lines.append(f'<text x="{x:.0f}" y="{y + 20:.0f}" text-anchor="middle">{2 ** i}×</text>')
        if i <= max(up, across):
            x, y = at(0, i)
            lines.append(f'<text x="{x - 10:.0f}" y="{y + 5:.0f}" text-anchor="end">{2 ** i}×</text>')
    (x0, y0), (x1, y1) = at(0, 0), at(across, across)
    lines.append(f'<line x1="{x0:.1f}" y1="{y0:.1f}" x2="{x1:.1f}" y2="{y1:.1f}" stroke="#999" stroke-dasharray="4 4"/>')
    for i, (name, of, points) in enumerate(series):
        places = [at(log2(x / points[0][0]), log2(y / points[0][1])) for x, y in points]
        path = " ".join(f"{x:.1f},{y:.1f}" for x, y in places)
        colour = COLOURS[i % len(COLOURS)]
        lines.append(f'<polyline points="{path}" fill="none" stroke="{colour}" stroke-width="2"/>')
        lines += [f'<circle cx="{x:.1f}" cy="{y:.1f}" r="3" fill="{colour}"/>' for x, y in places]
        y = top + 20 * i
        lines.append(f'<line x1="{wide - 330}" y1="{y}" x2="{wide - 305}" y2="{y}" stroke="{colour}" stroke-width="2"/>')
        lines.append(f'<text x="{wide - 298}" y="{y + 5}">{name.replace("`", "")}: {of}</text>')
    lines.append(f'<text x="{left}" y="{high - 8}">to the right: times the smallest size; upwards: times its instructions; dashed: as fast as the size</text>')
    return "\n".join(lines + ["</svg>", ""])


def main(ours, picture=None):
    words = words_for(Path(ours).resolve(), b"")
    series = {}
    with tempfile.TemporaryDirectory() as folder:
        for name, of, size, data, call, other in [*programs(), *calls()]:
            cost = counted(words, folder, data, call) - (counted(words, folder, data, other) if other else 0)
            series.setdefault((name, of), []).append((size, cost))
    print("| call | grows with | smallest: instructions | times the size: times the instructions |\n|---|---|---|---|")
    for (name, of), points in series.items():
        (size, cost), *others = points
        grown = ", ".join(f"{x / size:.3g}: {y / cost:.3g}" for x, y in others)
        print(f"| {name} | {of} | {size:,}: {cost:,.0f} | {grown} |")
    if picture:
        Path(picture).write_text(svg([(name, of, points) for (name, of), points in series.items()]), encoding="utf-8")


if __name__ == "__main__":
    main(*sys.argv[1:])
