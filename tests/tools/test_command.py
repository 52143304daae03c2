"""The tool as a command."""
import os
import subprocess
import sys
import tempfile
import unittest
from pathlib import Path

ROOT = Path(__file__).parents[2]


def run(*words, given=b"", program=""):
    """Exit status, output and what is said; with another program than the proved one, where it is named."""
    command, named = [sys.executable, "-B", ROOT / "tools/chart.py", *words], {"MIRTALUGHE_CHART": str(program)}
    done = subprocess.run(command, input=given, capture_output=True, timeout=60, env={**os.environ, **named})
    return done.returncode, done.stdout, done.stderr.decode()


class Command(unittest.TestCase):
    def test_through_pipes_and_back(self):
        text = b"# kind x1 y1 x2 y2\n3 0 0 4 4\n1 -32767 5 32767 6\n"
        status, data, said = run("encode", given=text)
        self.assertEqual((status, said), (0, ""))
        self.assertEqual(run("decode", given=data), (0, text, ""))

    def test_files(self):
        with tempfile.TemporaryDirectory() as folder:
            text, data, again = (Path(folder) / name for name in ("text", "data", "again"))
            text.write_bytes(b"# kind x1 y1 x2 y2\n3 0 0 4 4\n")
            self.assertEqual(run("encode", text, data), (0, b"", ""))
            self.assertEqual(run("decode", data, again), (0, b"", ""))
            self.assertEqual(again.read_bytes(), text.read_bytes())

    def test_a_fault_names_its_file_and_leaves_the_other_alone(self):
        with tempfile.TemporaryDirectory() as folder:
            text, data = Path(folder) / "bad.txt", Path(folder) / "data"
            text.write_bytes(b"3 0 0 4 4\n3 0 0 32768 4\n")
            data.write_bytes(b"kept")
            status, _, said = run("encode", text, data)
            self.assertEqual(status, 1)
            fault = "number 4 (x2) is 32768, it must be from -32767 to 32767"
            self.assertEqual(said, f"chart.py: {text}, line 2: {fault}\n")
            self.assertEqual(data.read_bytes(), b"kept")
        status, _, said = run("decode", given=b"\xc9\x01")
        self.assertEqual((status, said[:33]), (1, "chart.py: standard input, byte 0:"))

    def test_a_missing_file(self):
        status, _, said = run("encode", "no/such/file")
        self.assertEqual(status, 1)
        self.assertIn("no/such/file", said)

    def test_usage(self):
        for words in ((), ("code",), ("draw",), ("encode", "a", "b", "c"), ("page", "a.html"), ("page", "a", "b")):
            status, _, said = run(*words)
            self.assertEqual(status, 2)
            self.assertIn("chart.py encode", said)

    def test_help(self):
        for word in ("help", "--help", "-h"):
            status, told, said = run(word)
            self.assertEqual((status, said), (0, ""))
            self.assertIn(b"chart.py page TEXT.. PAGE", told)

    def test_draw(self):
        with tempfile.TemporaryDirectory() as folder:
            text = Path(folder) / "text"
            text.write_bytes(b"3 0 0 4 4\n3 0 4 4 0\n")
            status, picture, said = run("draw", text, given=b"chart 2\ncomplete yes\npair 0 1 at 2 2 2 2\nsteps 5\n")
            self.assertEqual((status, said), (0, ""))
            self.assertIn(b">0,1</text>", picture)
            status, _, said = run("draw", text, "-", given=b"chart 3\ncomplete yes\nsteps 4\n")
            self.assertEqual(status, 1)
            self.assertIn(f"standard input, line 1: 3 pieces, but {text} has 2", said)
            status, _, said = run("draw", text, given=b"refused 6\n")
            self.assertEqual(status, 1)
            self.assertIn("refused with 6: both ends of a piece equal", said)


if __name__ == "__main__":
    unittest.main()
