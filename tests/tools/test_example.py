"""The examples: the fan's file and picture are what the tool makes of its text, and the README shows the C program."""
import re
import unittest
from pathlib import Path

import drawing
import folding
from formats import chart_of_text, file_of_chart, listing_of_text

ROOT = Path(__file__).parents[2]
EXAMPLES = ROOT / "examples"


class BoosterFan(unittest.TestCase):
    def setUp(self):
        self.chart = chart_of_text((EXAMPLES / "booster_fan.chart.txt").read_bytes())
        self.listing = listing_of_text((EXAMPLES / "booster_fan.listing.txt").read_bytes())

    def test_file(self):
        self.assertEqual(file_of_chart(self.chart), (EXAMPLES / "booster_fan.chart").read_bytes())

    def test_picture(self):
        self.assertEqual(drawing.picture(self.chart, self.listing), (EXAMPLES / "booster_fan.svg").read_bytes())

    def test_folded_lines(self):
        """A piece of a line begins where the one before it ends, only one holds the joint, and they do not meet."""
        pieces, listed = self.chart.pieces, {m.pair for m in self.listing.meetings}
        joints = [i for i in range(len(pieces) - 1) if pieces[i].name == pieces[i + 1].name]
        self.assertEqual(len(joints), 7)
        for i in joints:
            before, after = pieces[i].ends()[1], pieces[i + 1].ends()[0]
            self.assertEqual((*before[:2], not before[2]), after)
            self.assertNotIn((i, i + 1), listed)


class FoldedLine(unittest.TestCase):
    def setUp(self):
        self.chart = chart_of_text((EXAMPLES / "folded_line.chart.txt").read_bytes())
        self.listing = listing_of_text((EXAMPLES / "folded_line.listing.txt").read_bytes())

    def test_drawn_by_the_tool(self):
        """The text's pieces are those of the two commands that it names."""
        commands = re.findall(r'tools/chart.py fold (\d+) (\d+) (\d+) "(.*)"', (EXAMPLES / "folded_line.chart.txt").read_text())
        drawn = [folding.pieces(int(m), int(h), int(s), name) for m, h, s, name in commands]
        self.assertEqual(self.chart.pieces, [piece for line in drawn for piece in line])
        self.assertEqual([len(line) for line in drawn], [6, 1])

    def test_meets_the_bearing_tone(self):
        """Each piece of the line meets the tone, and no other piece of its line."""
        self.assertEqual([m.pair for m in self.listing.meetings], [(i, 6) for i in range(6)])

    def test_file_and_picture(self):
        self.assertEqual(file_of_chart(self.chart), (EXAMPLES / "folded_line.chart").read_bytes())
        self.assertEqual(drawing.picture(self.chart, self.listing), (EXAMPLES / "folded_line.svg").read_bytes())


class Order(unittest.TestCase):
    def test_fan_told(self):
        """docs/ORDER.md shows how the fan's listing begins, and every line that it tells of stands there."""
        page, listing = (ROOT / "docs/ORDER.md").read_text(), (EXAMPLES / "booster_fan.listing.txt").read_text()
        shown = re.search(r"```\n(pair .*?)```", page, re.S)[1]
        self.assertIn(f"complete yes\n{shown}", listing)
        self.assertLess(listing.index("pair 7 11 at 2395 2396"), listing.index("pair 3 7 at 2400 2400"))
        for pair in re.findall(r"`(pair \d+ \d+)`", page):
            self.assertIn(f"\n{pair} ", listing)
        self.assertNotRegex(page, "(?i)sweep")


class First(unittest.TestCase):
    def test_shown_whole(self):
        """The README shows examples/first.c, all but its head comment."""
        _, shown = (EXAMPLES / "first.c").read_text().split("*/\n")
        self.assertIn(f"```c\n{shown}```\n", (ROOT / "README.md").read_text())


if __name__ == "__main__":
    unittest.main()
