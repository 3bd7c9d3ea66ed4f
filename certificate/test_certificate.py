"""The certificate against what the programs print, read apart from the script that makes it.

    python3 certificate/test_certificate.py [FOLDER]

FOLDER has the proved programs under their own names (target/programs where none is said).
"""
import hashlib
import random
import subprocess
import sys
import tempfile
import unittest
import xml.etree.ElementTree as ElementTree
from pathlib import Path

import certificate

sys.path.insert(0, str(Path(__file__).resolve().parent.parent / "reference"))
from cases import order, random_order, random_pack
from document01 import check_reply, plan_reply
from feeders import of_feeders

PROGRAMS = Path(__file__).resolve().parent.parent / "target" / "programs"
FETCHES = ("src", "href", "action", "data", "poster", "srcset", "background", "{http://www.w3.org/1999/xlink}href")


def prints(name, placement):
    return subprocess.run([PROGRAMS / name], input=placement, stdout=subprocess.PIPE, check=True).stdout.decode("ascii")


def placements(count, seed):
    """Accepted placements of all sizes, by the independent planner, half of them with feeders."""
    draw = random.Random(seed)
    while count:
        n, r, pack = random_pack(draw, most=draw.choice([6, 12, 40]), extra=2)
        s, k, b = random_order(draw, n, r, draw.choice([9, 300, 4_096]))
        placement = plan_reply(order(s, k, b) + pack)
        if count % 2 and not placement.startswith(b"refused"):
            placement = of_feeders(draw, placement)
        if check_reply(placement).startswith(b"accepted"):
            count -= 1
            yield placement


class Page(unittest.TestCase):
    def made(self, placement, *more):
        """The page's tree and text; what `main` answers and the tree of nothing where it made none."""
        with tempfile.TemporaryDirectory() as folder:
            file, page = Path(folder) / "site.placement", Path(folder) / "site.html"
            file.write_bytes(placement)
            status = certificate.main([str(file), str(page), "--programs", str(PROGRAMS), *more])
            text = page.read_text(encoding="utf-8") if page.exists() else None
        return status, text, ElementTree.fromstring(text.replace("<!DOCTYPE html>", "", 1)) if text else None

    def marked(self, tree, word):
        found = [e for e in tree.iter() if e.get("id") == word]
        self.assertEqual(len(found), 1, word)
        return found[0].text

    def test_figures_are_the_programs(self):
        for placement in placements(12, 31):
            status, text, tree = self.made(placement)
            self.assertEqual(status, 0)
            words = ("figure", "records", "failing", "nodes", "most", "mean")
            self.assertEqual("accepted " + " ".join(self.marked(tree, w) for w in words) + "\n", prints("check", placement))
            points = [e.find("title").text for e in tree.iter("circle") if e.get("class") == "point"]
            self.assertEqual("".join(p + "\n" for p in points), prints("curve", placement))
            self.assertEqual(self.marked(tree, "sum"), hashlib.sha256(placement).hexdigest())
            worst = prints("worst", placement)
            if worst.startswith("refused"):
                self.assertFalse([e for e in tree.iter() if e.get("id") in ("worst", "worst-set")])
            else:
                self.assertEqual(self.marked(tree, "worst") + " " + self.marked(tree, "worst-set") + "\n", worst)

    def test_points_stand_where_their_numbers_say(self):
        for placement in placements(6, 32):
            tree = self.made(placement)[2]
            points = [e for e in tree.iter("circle") if e.get("class") == "point"]
            numbers = [tuple(map(int, e.find("title").text.split())) for e in points]
            places = [(float(e.get("cx")), float(e.get("cy"))) for e in points]
            for (k, f), (x, y), (k2, f2), (x2, y2) in zip(numbers, places, numbers[1:], places[1:]):
                self.assertTrue(k < k2 and x < x2 and f >= f2 and y <= y2)
            line = next(tree.iter("polyline")).get("points").split()
            self.assertEqual(line, [f"{x},{y}" for x, y in places])

    def test_complete_in_itself(self):
        for placement in placements(2, 33):
            text, tree = self.made(placement, "--site", "Dock <7> & \"works\"")[1:]
            for e in tree.iter():
                self.assertNotIn(e.tag, ("script", "link", "iframe", "img", "object", "embed", "image", "use"))
                self.assertFalse([a for a in e.keys() if a in FETCHES or a.startswith("on")])
            for word in ("http", "url(", "@import", "javascript"):
                self.assertNotIn(word, text)
            self.assertIn("Dock &lt;7&gt; &amp; ", text)

    def test_no_certificate_for_a_refused_placement(self):
        for placement in placements(4, 34):
            self.assertEqual(self.made(placement + b"\0")[:2], (1, None))


if __name__ == "__main__":
    if len(sys.argv) > 1:
        PROGRAMS = Path(sys.argv.pop(1)).resolve()
    unittest.main(verbosity=0, buffer=True)
