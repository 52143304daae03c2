"""A region and its peaks: what is wrong in a text or an answer is told, and each peak is drawn as it was answered."""
import re
import tempfile
import unittest
from pathlib import Path

from test_command import run
from test_formats import ROOT

EXAMPLE = ROOT / "examples/peaks.region.txt"
# Worked out by hand, from the corners.
ANSWERS = b"inside\non\noutside\noutside\n"


class Regions(unittest.TestCase):
    def test_drawn(self):
        status, picture, said = run("region", EXAMPLE, given=ANSWERS)
        self.assertEqual((status, said), (0, ""))
        drawn = re.findall(rb'class="peak (\w+)"', picture)
        self.assertEqual(drawn[:4], ANSWERS.split())
        self.assertEqual(picture.count(b'class="answer"'), 4)
        path = re.search(rb'<path d="M(.*?) Z"', picture)[1]
        self.assertEqual(path.count(b" L"), 4)

    def test_refused_peak(self):
        status, picture, _ = run("region", EXAMPLE, given=b"inside\non\nrefused 5 0\noutside\n")
        self.assertEqual(status, 0)
        self.assertIn(b"refused 5 0</text>", picture)

    def test_wrong_answers(self):
        for answers in (b"", b"inside\n", b"inside\non\noutside\nnone\n", b"inside\non\noutside\nrefused 5\n", ANSWERS + b"on\n"):
            self.assertEqual(run("region", EXAMPLE, given=answers)[0], 1, answers)

    def test_wrong_text(self):
        for text in (b"corner 1\n", b"\ncorner 1 2 3\n", b"point 1 2\n", b"peak 1 x\n"):
            with tempfile.TemporaryDirectory() as folder:
                name = Path(folder) / "text"
                name.write_bytes(text)
                status, _, said = run("region", name, given=b"")
                self.assertEqual(status, 1)
                self.assertIn("`corner` or `peak` and two numbers are due", said)


if __name__ == "__main__":
    unittest.main()
