"""Meetings with names, by speed, as the proved program lists them; and what is told where a program or a stream fails."""
import csv
import io
import json
import os
import subprocess
import sys
import tempfile
import unittest
from pathlib import Path

import meetings
from formats import LONGEST_FILE, MOST_TEXT, Along, At, Chart, Listing, Meeting, Piece, chart_of_text, listing_of_text
from test_command import ROOT, run

FAN = ROOT / "examples/booster_fan.chart.txt"
STRETCH = b'3 0 0 4 0 # a\n3 2 0 6 0\n3 0 1 1 -1 # c, "d"\n'


def listed():
    return listing_of_text((ROOT / "examples/booster_fan.listing.txt").read_bytes())


class Listed(unittest.TestCase):
    def test_the_fan(self):
        """Every meeting of the kept listing, with the names that the text gives its pieces."""
        status, data, said = run("list", "--json", FAN)
        told, kept = json.loads(data), listed()
        self.assertEqual((status, told["complete"], told["steps"]), (0, kept.complete, kept.steps))
        self.assertEqual(said == "", kept.complete)
        due = sorted((m.pair, m.place.corners()) for m in kept.meetings)
        pieces = [(tuple(m["pieces"]), tuple(zip(m["speed"], m["frequency"]))) for m in told["meetings"]]
        self.assertEqual(sorted(pieces), due)
        speeds = [m["speed"] for m in told["meetings"]]
        self.assertEqual(speeds, sorted(speeds))
        names = [piece.name for piece in chart_of_text(FAN.read_bytes()).pieces]
        self.assertEqual([m["names"] for m in told["meetings"]], [[names[i] for i in m["pieces"]] for m in told["meetings"]])

    def test_table(self):
        status, data, said = run("list", given=STRETCH)
        due = (
            "speed   frequency  tone  or tone  pieces",
            '0 to 1  0          a     c, "d"   0 2',
            "2 to 4  0          a     piece 1  0 1",
        )
        self.assertEqual((status, data.decode(), said), (0, "".join(f"{line}\n" for line in due), ""))

    def test_csv(self):
        status, data, said = run("list", "-", "--csv", given=STRETCH)
        rows = list(csv.reader(io.StringIO(data.decode())))
        self.assertEqual((status, said), (0, ""))
        self.assertEqual(rows[0], list(meetings.FIELDS))
        self.assertEqual(
            rows[1:], [["at", "0", "1", "0", "0", "a", 'c, "d"', "0", "2"], ["along", "2", "4", "0", "0", "a", "", "0", "1"]]
        )

    def test_between_two_speeds(self):
        """A cell counts at both its speeds, a stretch all along."""
        for speeds, pairs in (
            ((-9, -1), []),
            ((-9, 0), [[0, 2]]),
            ((1, 1), [[0, 2]]),
            ((3, 3), [[0, 1]]),
            ((1, 2), [[0, 2], [0, 1]]),
            ((5, 9), []),
        ):
            status, data, _ = run("list", "--speed", *map(str, speeds), "--json", given=STRETCH)
            told = [m["pieces"] for m in json.loads(data)["meetings"]]
            self.assertEqual((status, told), (0, pairs), speeds)
        self.assertEqual(run("list", "--speed", "5", "9", given=STRETCH), (0, b"no two pieces meet between 5 and 9\n", ""))
        self.assertEqual(run("list", given=b""), (0, b"no two pieces meet\n", ""))

    def test_order(self):
        """By the first common point's speed: 2, then between 2 and 3, then 3; a stretch at its first end."""
        places = [At(3, 3, 0, 0), At(2, 3, 0, 0), Along(2, 5, 9, 5), At(2, 2, 0, 0), At(-1, 0, 0, 0)]
        chart = Chart([Piece(3, 0, 0, 9, 9)] * 6)
        listing = Listing(6, True, [Meeting((0, i + 1), place) for i, place in enumerate(places)], 1)
        self.assertEqual([row.pieces[1] for row in meetings.rows_of(chart, listing)], [5, 3, 4, 2, 1])

    def test_not_complete_is_told(self):
        chart, listing = Chart([Piece(3, 0, 0, 0, 9)]), Listing(1, False, [], 2)
        self.assertIn(b'"complete": false', meetings.as_json(chart, listing))
        with tempfile.TemporaryDirectory() as folder:
            status, data, said = run(
                "list", given=b"3 0 0 0 4\n", program=fake(folder, "printf 'chart 1\\ncomplete no\\nsteps 2\\n'")
            )
        self.assertEqual(
            (status, data, said), (0, b"no two pieces meet\n", f"chart.py: standard input: {meetings.NOT_COMPLETE}\n")
        )

    def test_refused(self):
        status, data, said = run("list", given=b"3 0 0 4 4\n\n7 0 0 5 5\n")
        self.assertEqual((status, data), (1, b""))
        self.assertEqual(said, "chart.py: standard input, line 3: number 1 (kind) is 7, it must be from 0 to 3\n")

    def test_usage(self):
        for words in (
            ("--speed", "1"),
            ("--speed", "2", "1"),
            ("--speed", "a", "b"),
            ("--xml",),
            ("a", "b"),
            ("--json", "--csv"),
        ):
            self.assertEqual(run("list", *words)[0], 2, words)


def fake(folder, script):
    """A program that is not the proved one."""
    program = Path(folder) / "chart"
    program.write_text(f"#!/bin/sh\ncat > /dev/null\n{script}\n")
    program.chmod(0o755)
    return program


class Program(unittest.TestCase):
    def test_what_is_told(self):
        """The program's silence, its status and a listing that is not whole."""
        for script, due in (
            ("", "line 1: `chart` and a number are due, not ''"),
            ("printf 'chart 1\\ncomplete yes\\n'", "line 3: `steps` and a number are due, not ''"),
            ("printf 'chart 2\\ncomplete yes\\nsteps 2\\n'", "line 1: 2 pieces of 1"),
            ("printf 'refused 3\\n'", "line 1: the chart was refused with 3: count above"),
            ("exit 7", "which lists the meetings, ended with status 7"),
            ("kill -9 $$", "which lists the meetings, ended with status -9"),
            (
                "printf 'chart 1\\ncomplete yes\\n'; head -c 9000 /dev/zero | tr '\\0' x",
                "line 3: `steps` and a number are due, not 'xxxx",
            ),
        ):
            with tempfile.TemporaryDirectory() as folder:
                program = fake(folder, script)
                status, data, said = run("list", given=b"3 0 0 4 4\n", program=program)
            self.assertEqual((status, data), (1, b""), script)
            self.assertTrue(said.startswith(f"chart.py: the program {program}, {due}"), said)
            self.assertLess(len(said), 300)

    def test_not_there(self):
        status, _, said = run("list", given=b"", program="/no/such/program")
        self.assertEqual((status, said[:38]), (1, "chart.py: the program /no/such/program"))
        self.assertIn("`make` proves and builds it", said)


class Streams(unittest.TestCase):
    def shell(self, script):
        """Status and what is said of a line of shell in which `chart` is the tool."""
        tool = f'chart() {{ "{sys.executable}" -B "{ROOT}/tools/chart.py" "$@"; }}; cd "{ROOT}"; '
        done = subprocess.run(["bash", "-c", tool + script], capture_output=True, timeout=60)
        return done.returncode, done.stderr.decode()

    def test_closed_and_full(self):
        """Every command tells a stream that is closed or full in one sentence, and has status 1."""
        text = "examples/booster_fan.chart.txt"
        for words in (
            f"list {text}", f"page {text} -", f"draw {text} examples/booster_fan.listing.txt",
            f"encode {text}", "decode examples/booster_fan.chart", "pairs <(echo 1 0)",
        ):  # fmt: skip
            self.assertEqual(self.shell(f"chart {words} >&-"), (1, "chart.py: standard output is closed\n"), words)
            self.assertEqual(
                self.shell(f"chart {words} > /dev/full"), (1, "chart.py: standard output: No space left on device\n"), words
            )
        for words in ("list", "encode", "decode", "pairs", "page - -", f"draw {text}"):
            self.assertEqual(self.shell(f"chart {words} <&-"), (1, "chart.py: standard input is closed\n"), words)
        self.assertEqual(self.shell(f"chart encode {text} /dev/full"), (1, "chart.py: /dev/full: No space left on device\n"))
        self.assertEqual(
            self.shell(f"set -o pipefail; chart page {text} - | true"), (1, "chart.py: standard output: Broken pipe\n")
        )
        self.assertEqual(self.shell("chart list /no/such >&- 2>&-")[0], 1)

    def test_endless_input(self):
        """Of a chart file the bytes that decide are read, of a text so many at most."""
        for words, due in (
            (
                "decode /dev/zero",
                "chart.py: /dev/zero, byte 1: there are no pieces (refused 7: bytes after the last piece)\n",
            ),
            (
                "decode < /dev/zero",
                "chart.py: standard input, byte 1: there are no pieces (refused 7: bytes after the last piece)\n",
            ),
            ("list < <(yes '#')", f"chart.py: standard input, byte {MOST_TEXT}: a text has at most so many\n"),
            ("encode /dev/zero", f"chart.py: /dev/zero, byte {MOST_TEXT}: a text has at most so many\n"),
            ("pairs /dev/zero", f"chart.py: /dev/zero, byte {MOST_TEXT}: a text has at most so many\n"),
            ("draw /dev/null /dev/zero", f"chart.py: /dev/zero, byte {MOST_TEXT}: a text has at most so many\n"),
            ("tell /dev/null /dev/zero", f"chart.py: /dev/zero, byte {MOST_TEXT}: a list has at most so many here\n"),
        ):
            self.assertEqual(self.shell(f"ulimit -v 300000; chart {words}"), (1, due), words)

    def test_no_more_is_read_than_decides(self):
        read, write = os.pipe()
        given = bytes([0]) + bytes(LONGEST_FILE)
        os.write(write, given)
        command = [sys.executable, "-B", ROOT / "tools/chart.py", "decode"]
        done = subprocess.run(command, stdin=read, capture_output=True, timeout=60)
        self.assertEqual((len(given), done.returncode), (LONGEST_FILE + 1, 1))
        os.close(write)
        os.close(read)


if __name__ == "__main__":
    unittest.main()
