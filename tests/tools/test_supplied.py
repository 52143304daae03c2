"""A supplier's list as text, and what is said of it."""
import tempfile
import unittest
from pathlib import Path

from test_command import run

GAP = b"3 0 0 0 10 # shaft\n3 -5 3 5 3\n3 -5 6 5 6 # blade pass\n"


class Supplied(unittest.TestCase):
    def test_text_becomes_bytes(self):
        self.assertEqual(run("pairs", given=b"# from elsewhere\n1 0\n\n0 2 # turned\n"), (0, b"\x01\x00\x00\x02", ""))
        for wrong in (b"1 0\n1\n", b"\n1 256\n", b"\n-1 0\n", b"\n1 0 2\n", b"\na b\n"):
            status, _, said = run("pairs", given=wrong)
            self.assertEqual((status, said[:34]), (1, "chart.py: standard input, line 2: "))

    def test_sentences(self):
        told = {
            "accepted": "The list names each pair that meets once, and no other.",
            "missing 2 0": "Every entry is good, but piece 2 (blade pass) and piece 0 (shaft) meet, and no entry names them.",
            "fault 0 3": "Entry 0 is at fault, piece 1 and piece 0 (shaft): the two do not meet.",
            "fault 1 1": "Entry 1 is at fault, piece 2 (blade pass) and 9 (of 3 pieces): one of its numbers is not a piece's.",
            "fault 2 4": "Entry 2 is at fault, piece 0 (shaft) and piece 1: it repeats the pair of an earlier entry, entry 0.",
            "refused 16 0": "The call is refused with 16: an odd number of bytes, two a pair, place 0.",
        }
        for answer, sentence in told.items():
            self.assertEqual(self.tell(answer), (0, f"{sentence}\n".encode(), ""))
        for answer in ("", "fault 3 1", "fault 0 5", "missing 1", "accepted 1", "right", "refused 77 0"):
            self.assertEqual(self.tell(answer)[0], 1, answer)

    def tell(self, answer):
        with tempfile.TemporaryDirectory() as folder:
            text, pairs = Path(folder) / "text", Path(folder) / "pairs"
            text.write_bytes(GAP)
            pairs.write_bytes(bytes([1, 0, 2, 9, 0, 1]))
            return run("tell", text, pairs, given=answer.encode())


if __name__ == "__main__":
    unittest.main()
