"""Readings as they were before a request, kept in tests/recorded/readings, beside those of today: the files that moved."""
import unittest
from collections import Counter

from test_formats import ROOT, answers, recorded

KEPT = ROOT / "tests/recorded/readings"
OLD_MOST = 64


def kept(name):
    """Each file and what was read of it."""
    lines = (KEPT / f"{name}.txt").read_text().splitlines()
    return [(bytes.fromhex(file), answer) for file, answer in (line.split("  ") for line in lines)]


class CountInGroups(unittest.TestCase):
    """2026-07: a file whose first byte is at most 64, and the empty one, reads as before, its refusal and place too. One that
    begins with more was refused for its count."""

    def test_moved(self):
        today = dict(zip(recorded("r"), answers().splitlines()))
        old, moved = 0, Counter()
        for data, answer in kept("until_2026-07"):
            if data[:1] <= bytes([OLD_MOST]):
                old += 1
                self.assertEqual(today[data], answer, data.hex())
            else:
                self.assertEqual(answer, "refused 3 0")
                moved[" ".join(today[data].split()[:2])] += 1
        print(f"2026-07: {old} of {old + moved.total()} files begin with {OLD_MOST} or less and read as before")
        print(f"  of the others, all refused with 3 before: {dict(moved.most_common())}")
        self.assertGreater(old, 500)
        self.assertEqual(set(moved), {"refused 1", "refused 2", "refused 3", "refused 4"})

    def test_larger(self):
        """Every file of a chart of more pieces than there were begins with more: an older reader refused it with 3."""
        larger = [data for data, answer in zip(recorded("r"), answers().splitlines()) if larger_chart(answer)]
        self.assertGreater(len(larger), 4)
        for data in larger:
            self.assertGreater(data[0], OLD_MOST)


def larger_chart(answer):
    return answer.startswith("read ") and int(answer.split()[1]) > OLD_MOST


if __name__ == "__main__":
    unittest.main()
