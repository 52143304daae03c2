"""Folded lines: the pieces that the tool draws are held to a tone that is walked unit by unit between 0 and H."""
import unittest
from fractions import Fraction

import folding
from formats import Wrong
from test_command import run


def walked(m, h, s):
    """The folded value at every whole x from 0 to s, and how often the tone has turned back before m times s."""
    values, at, step, turns = [0], 0, 1, 0
    for _ in range(s):
        for _ in range(m):
            if at + step not in range(h + 1):
                step, turns = -step, turns + 1
            at += step
        values.append(at)
    return values, turns


def held(piece, x):
    (x1, y1, first), (x2, y2, second) = piece.ends()
    inside = x1 < x < x2 or x == x1 and first or x == x2 and second
    return [y1 + Fraction((y2 - y1) * (x - x1), x2 - x1)] if inside else []


class Folding(unittest.TestCase):
    def check(self, m, h, s):
        values, turns = walked(m, h, s)
        try:
            drawn = folding.pieces(m, h, s)
        except Wrong as e:
            due = 13 if m * s > h and h % m else 14
            self.assertEqual(str(e)[:11], f"refused {due}:", (m, h, s))
            self.assertTrue(due == 13 or turns >= 200, (m, h, s))
            return due
        self.assertFalse(m * s > h and h % m, (m, h, s))
        self.assertEqual(len(drawn), turns + 1, (m, h, s))
        for x, value in enumerate(values):
            self.assertEqual([y for piece in drawn for y in held(piece, x)], [value], (m, h, s, x))
        return 0

    def test_every_order(self):
        seen = [self.check(m, h, s) for m in range(1, 61) for h in range(1, 17) for s in range(1, 7)]
        self.assertEqual(set(seen), {0, 13})

    def test_at_joints(self):
        for m, w in ((1, 1), (2, 3), (7, 5), (60, 9)):
            for j in (1, 2, 5, 200):
                for s in (j * w - 1, j * w, j * w + 1):
                    if s:
                        self.assertEqual(self.check(m, m * w, s), 14 if s > 200 * w else 0)

    def test_limits(self):
        for m, h, s, due in ((1, 1, 200, 0), (1, 1, 201, 14), (1, 32767, 32767, 0), (60, 32760, 32767, 0), (60, 32767, 546, 0), (60, 32767, 547, 13)):
            self.assertEqual(self.check(m, h, s), due, (m, h, s))

    def test_command(self):
        self.assertEqual(
            run("fold", "50", "500", "25", "blade pass"),
            (0, b"1 0 0 10 500   # blade pass\n1 10 500 20 0   # blade pass\n3 20 0 25 250   # blade pass\n", ""),
        )
        self.assertEqual(run("fold", "2", "9", "4"), (0, b"3 0 0 4 8\n", ""))
        for words in (("0", "1", "1"), ("61", "1", "1"), ("1", "0", "1"), ("1", "32768", "1"), ("1", "1", "0"), ("1", "1", "32768")):
            status, _, said = run("fold", *words)
            self.assertEqual((status, said[:46]), (1, "chart.py: refused 12: an argument out of range"), words)
        self.assertEqual(run("fold", "1", "x", "1"), (1, b"", "chart.py: 'x' is not a whole number\n"))
        self.assertEqual(run("fold", "1", "2")[0], 2)


if __name__ == "__main__":
    unittest.main()
