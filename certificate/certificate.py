"""A site certificate as one HTML page, from a placement and what the proved programs say of it.

    python3 certificate/certificate.py PLACEMENT PAGE.html [--site NAME] [--date DATE] [--programs FOLDER]

Every figure on the page is a word of a program's output (`check`, `curve`, `worst`, `page`); nothing is computed here but where a point
of the picture stands. Where `check` refuses the placement there is no certificate: its line is printed, and the status is 1.
The page is complete in itself: no script, and nothing that a browser would fetch.
"""
import argparse
import datetime
import hashlib
import html
import subprocess
import sys
from pathlib import Path

from picture import curve_picture

HOME = Path(__file__).resolve().parent.parent
PROGRAMS = ("check", "curve", "worst", "page")

STYLE = """
body { font: 11pt/1.5 Georgia, serif; color: #1a1a1a; background: #fff; max-width: 44em; margin: 2em auto; padding: 0 1.5em; }
h1 { font-size: 1.7em; font-weight: normal; border-bottom: 2px solid #1f4e79; padding-bottom: .3em; margin-bottom: .2em; }
h2 { font-size: 1.1em; color: #1f4e79; margin: 1.8em 0 .4em; page-break-after: avoid; }
p.says { font-size: 1.25em; border-left: 4px solid #1f4e79; padding: .4em 0 .4em 1em; margin: 1.4em 0; }
table { border-collapse: collapse; }
td, th { text-align: left; font-weight: normal; padding: .15em 1.5em .15em 0; vertical-align: top; border-bottom: 1px solid #ddd; }
td { font-variant-numeric: tabular-nums; }
code { font-family: ui-monospace, Menlo, Consolas, monospace; font-size: .85em; overflow-wrap: anywhere; }
figure { margin: 1em 0; page-break-inside: avoid; } svg { width: 100%; height: auto; }
@media print { body { margin: 0; max-width: none; } }
"""


class Refused(Exception):
    """The line of a program that refused the placement."""


def run(folder, name, placement):
    """What a proved program prints for a placement."""
    return subprocess.run([Path(folder) / name], input=placement, stdout=subprocess.PIPE, check=True).stdout.decode("ascii")


def kind_of(placement):
    """The file's first number: which kind of placement it is. Groups of seven bits, lowest first."""
    kind = 0
    for place, byte in enumerate(placement[:4]):
        kind |= (byte & 127) << (7 * place)
        if byte < 128:
            break
    return kind


def said(folder, placement):
    """What the programs say of a placement, word by word."""
    checked = run(folder, "check", placement)
    if not checked.startswith("accepted "):
        raise Refused(checked.strip())
    figure, records, failing, nodes, most, mean = checked.split()[1:]
    curve = [tuple(line.split()) for line in run(folder, "curve", placement).splitlines()]
    worst = run(folder, "worst", placement).split()
    page = run(folder, "page", placement)
    # a curve begins at s, and a line of the page has after its first six characters a field of four for each copy
    return {
        "figure": figure, "records": records, "failing": failing, "nodes": nodes, "most": most, "mean": mean, "curve": curve,
        "lost": curve[0][0], "copies": str(len(page.splitlines()[0][6:].split())), "page": page,
        "worst": None if worst[0] == "refused" else worst[0], "worst set": worst[1:],
        "unit": "feeder" if kind_of(placement) == 6 else "cabinet",
    }


def version(*command):
    """The first line that a command prints, or that it is not to be had."""
    try:
        done = subprocess.run(command, cwd=HOME, stdout=subprocess.PIPE, stderr=subprocess.DEVNULL, check=True)
        return done.stdout.decode().splitlines()[0]
    except (OSError, IndexError, subprocess.CalledProcessError):
        return "not known"


def table(rows):
    """Rows of a name, a value and, where the value is a program's, the word by which a test finds it."""
    cells = []
    for name, value, word in rows:
        mark = f' id="{word}"' if word else ""
        cells.append(f"<tr><th>{html.escape(name)}</th><td{mark}>{html.escape(value)}</td></tr>")
    return "<table>\n" + "\n".join(cells) + "\n</table>"


def sentence(words):
    """The guarantee."""
    return (f'Of <b>{words["records"]}</b> records on {words["nodes"]} cabinets at least <b id="figure">{words["figure"]}</b> stay usable, '
            f'<b>whichever</b> {words["failing"]} {words["unit"]}s lose supply together.')


def facts(words):
    unit = words["unit"]
    rows = [
        ("Records", words["records"], "records"), ("Copies of each record", words["copies"], "copies"),
        ("Copies on failed " + unit + "s that lose a record", words["lost"], "lost"),
        ("Cabinets", words["nodes"], "nodes"), (unit.capitalize() + "s that may fail together", words["failing"], "failing"),
        ("Records on the fullest cabinet", words["most"], "most"), ("Records on a cabinet, mean", words["mean"], "mean"),
    ]
    if words["worst"]:
        rows.append((f'Usable in the worst case, every choice of {words["failing"]} {unit}s tried', words["worst"], "worst"))
        rows.append((f"Such a choice: {unit}s", " ".join(words["worst set"]), "worst-set"))
    return table(rows)


def proved(words):
    """What was proved and where to verify it."""
    holds = "n-whichever (RequestN.antt)" if words["unit"] == "feeder" else "demand-3-whichever (Demands.antt)"
    return table([
        ("The figure holds whichever fail", holds, None),
        ("The file is accepted exactly when it is such a placement", "demand-2-placement (Demands.antt)", None),
        ("Every point of the curve holds", "c-curve, n-curve (RequestC.antt, RequestNCalls.antt)", None),
        ("The worst case is the least over all choices", "j-worst, n-worst (RequestJ.antt, RequestNCalls.antt)", None),
    ])


def certificate(words, files, site, date):
    """The page."""
    unit = words["unit"]
    return f"""<!DOCTYPE html>
<html lang="en">
<head>
<meta charset="utf-8"/>
<title>Site certificate: {html.escape(site)}</title>
<style>{STYLE}</style>
</head>
<body>
<h1>Site certificate</h1>
<p>{html.escape(site)}, {html.escape(date)}</p>
<p class="says">{sentence(words)}</p>
<h2>The estate</h2>
{facts(words)}
<h2>For every number of failures</h2>
<figure>
{curve_picture(words["curve"], words["failing"], words["records"], unit)}
<figcaption>Records that stay usable whichever {unit}s fail, for each number of failed {unit}s. The ring is the number on this certificate.</figcaption>
</figure>
<h2>What was proved</h2>
<p>The programs that gave these figures are proved, for every input, by a machine that checked every step. The theorems stand in
<code>crates/promises/proofs</code>; <code>docs/PROMISES.md</code> says in words what they promise and what is trusted.</p>
{proved(words)}
<p>To verify it: <code>.ci/run</code> in the source of this version proves everything again, and its last line is
<code>N passed, 0 failed</code>; <code>check</code> on the file with the sum below prints the figures above.</p>
<h2>The file and the versions</h2>
{files}
</body>
</html>
"""


def told_files(path, placement, folder):
    rows = [("Placement", path.name, None), ("Its bytes", str(len(placement)), None),
            ("SHA-256", hashlib.sha256(placement).hexdigest(), "sum")]
    rows += [("Source", version("git", "rev-parse", "HEAD"), None), ("Rattle", version("rt", "version"), None)]
    for name in PROGRAMS:
        rows.append((f"SHA-256 of {name}", hashlib.sha256((Path(folder) / name).read_bytes()).hexdigest(), None))
    return table(rows)


def main(arguments=None):
    parser = argparse.ArgumentParser(description="A site certificate as one HTML page.")
    parser.add_argument("placement", type=Path)
    parser.add_argument("page", type=Path)
    parser.add_argument("--site", default="Site")
    parser.add_argument("--date", default=datetime.date.today().isoformat())
    parser.add_argument("--programs", type=Path, default=HOME / "target" / "programs")
    given = parser.parse_args(arguments)
    placement = given.placement.read_bytes()
    try:
        words = said(given.programs, placement)
    except Refused as refused:
        print(refused)
        return 1
    files = told_files(given.placement, placement, given.programs)
    given.page.write_text(certificate(words, files, given.site, given.date), encoding="utf-8")
    return 0


if __name__ == "__main__":
    sys.exit(main())
