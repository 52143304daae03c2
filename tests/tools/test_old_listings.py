"""Listings as they were before a request, kept in tests/recorded/listings, beside those of today: the lines that moved."""
import re
import unittest

from test_formats import ROOT, answers

KEPT = ROOT / "tests/recorded/listings"
MOST_TOLD = 20


def kept(name):
    return (KEPT / f"{name}.txt").read_text().splitlines()


def today():
    """The recorded listings, which stand last: from the first line that is `chart` and a number alone."""
    lines = answers().splitlines()
    return lines[next(i for i, line in enumerate(lines) if re.fullmatch(r"chart \d+", line)) :]


def lines_moved(name, old, new):
    """The lines that differ, told as they are found, the first few of many. No line comes or goes; the listings of
    charts that were added since stand at the end."""
    moved = [(a, b) for a, b in zip(old, new[: len(old)], strict=True) if a != b]
    print(f"{name}: {len(moved)} of {len(old)} lines moved")
    for a, b in moved[:MOST_TOLD]:
        print(f"  {a:32}  {b}")
    if len(moved) > MOST_TOLD:
        print(f"  and {len(moved) - MOST_TOLD:,} more")
    return moved


class OnePointIsAPoint(unittest.TestCase):
    """2026-03: where two collinear pieces share a single point, the line says `at`; no other line moves."""

    def test_moved(self):
        moved = lines_moved("2026-03", kept("until_2026-03"), kept("until_2026-04"))
        self.assertEqual(len(moved), 16)
        for old, new in moved:
            pair, place = old.split(" along ")
            x, y, *last = place.split()
            self.assertEqual(last, [x, y])
            self.assertEqual(new, f"{pair} at {x} {y}")

    def test_none_left(self):
        for line in today():
            _, is_along, place = line.partition(" along ")
            if is_along:
                x1, y1, x2, y2 = place.split()
                self.assertNotEqual((x1, y1), (x2, y2))


class NeitherSideIsRoundedAway(unittest.TestCase):
    """2026-04: every `at` has two units for one; the nearest that stood there is one of them, and no other line moves."""

    def test_moved(self):
        before = kept("until_2026-04")
        moved = lines_moved("2026-04", before, kept("until_2026-02"))
        self.assertEqual(len(moved), sum(" at " in line for line in before))
        self.assertEqual(len(moved), 1619)
        whole = 0
        for old, new in moved:
            pair, nearest = old.split(" at ")
            x, y = map(int, nearest.split())
            self.assertTrue(new.startswith(f"{pair} at "), new)
            x_low, x_high, y_low, y_high = map(int, new.removeprefix(f"{pair} at ").split())
            for low, at, high in ((x_low, x, x_high), (y_low, y, y_high)):
                self.assertIn(at, (low, high))
                self.assertIn(high - low, (0, 1))
                whole += low == high
        print(f"  {whole:,} of their {2 * len(moved):,} values are whole")


def charts(lines):
    """Each chart's listing, as a list of lines."""
    begins = [i for i, line in enumerate(lines) if line.startswith("chart ")] + [len(lines)]
    return [lines[a:b] for a, b in zip(begins, begins[1:])]


class UprightsInFull(unittest.TestCase):
    """2026-02: the listing of a chart without upright pieces is the old one; with them it is complete, and the old pairs
    stand in it in their order, beside those that were lost."""

    def test_moved(self):
        before = charts(kept("until_2026-02"))
        upright = lost = 0
        for old, new in zip(before, charts(today())):
            if old[1] == "complete yes":
                self.assertEqual(new, old)
                continue
            upright += 1
            self.assertEqual(new[:2], [old[0], "complete yes"])
            left = iter(new[2:-1])
            self.assertTrue(all(pair in left for pair in old[2:-1]), old)
            lost += len(new) - len(old)
        print(f"2026-02: {upright} of {len(before)} charts have upright pieces; {lost} pairs of theirs were lost")
        self.assertEqual((len(before), upright, lost), (283, 104, 22))


if __name__ == "__main__":
    unittest.main()
