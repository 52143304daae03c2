"""The readable text, the chart file and the listing: round trips, limits on both sides, and whatever may be damaged."""
import random
import re
import unittest
from pathlib import Path

from formats import LIMIT, LONGEST_FILE, MOST_PIECES, Along, At, Chart, Meeting, Piece, Refused, Wrong
from formats import chart_of_file, chart_of_text, file_of_chart, listing_of_text, text_of_chart

ROOT = Path(__file__).parents[2]
REPLAY = ROOT / "crates/replay"
SCOPES_TEXT = b"3 0 0 4 4\n3 0 4 4 0\n"
SCOPES_FILE = bytes.fromhex("02 03 00 00 08 08 03 00 08 08 00")


def random_chart(seed):
    rnd, pieces = random.Random(seed), []
    for _ in range(rnd.choice((0, 1, 2, 5, 127, 128, MOST_PIECES))):
        most = rnd.choice((1, 63, 64, 8191, 8192, LIMIT))
        x1, y1, x2, y2 = (rnd.choice((-most, most, rnd.randint(-most, most))) for _ in range(4))
        if (x1, y1) != (x2, y2):
            pieces.append(Piece(rnd.randrange(4), x1, y1, x2, y2))
    return Chart(pieces)


def recorded(letter):
    """The files of the recorded questions under a letter (tests/recorded/README.md)."""
    data, at, files = (REPLAY / "stdin").read_bytes(), 0, []
    while at < len(data):
        end = at + 3 + int.from_bytes(data[at + 1 : at + 3], "little")
        if data[at] == ord(letter):
            files.append(data[at + 3 : end])
        at = end
    return files


def answers():
    """What the Rust says to all recorded questions: readings first, a line each, and listings last."""
    return (REPLAY / "stdout").read_text()


def told(form, data):
    """What is said of data that is wrong."""
    try:
        form(data)
    except Wrong as e:
        return str(e)
    return "nothing"


class Text(unittest.TestCase):
    def test_comments_blank_lines_and_names(self):
        chart = chart_of_text(b"# a comment\n\n  3 0 -1 4 4   # the shaft\r\n#1 2 3\n\t0 5 5 6 6")
        self.assertEqual(chart.pieces, [Piece(3, 0, -1, 4, 4, "the shaft"), Piece(0, 5, 5, 6, 6)])

    def test_headings(self):
        chart = chart_of_text(b"# title: A fan: no. 2\n#across:rpm\n# up:\n# note: none\n3 0 0 1 1 # title: x")
        self.assertEqual(chart.headings, {"title": "A fan: no. 2", "across": "rpm"})
        self.assertEqual(chart.pieces[0].name, "title: x")

    def test_no_pieces(self):
        self.assertEqual(chart_of_text(b"").pieces, [])

    def test_count(self):
        self.assertEqual(len(chart_of_text(b"3 0 0 1 1\n" * MOST_PIECES).pieces), MOST_PIECES)
        said = told(chart_of_text, b"#\n" + b"3 0 0 1 1\n" * (MOST_PIECES + 1))
        self.assertIn(f"line {MOST_PIECES + 2}: piece {MOST_PIECES} is one too many", said)

    def test_coordinates(self):
        for at, meaning in enumerate(("x1", "y1", "x2", "y2"), 1):
            for limit, beyond in ((LIMIT, LIMIT + 1), (-LIMIT, -LIMIT - 1)):
                words = ["3", "0", "0", "1", "1"]
                words[at] = str(limit)
                self.assertEqual(chart_of_text(" ".join(words).encode()).pieces[0].numbers()[at], limit)
                words[at] = str(beyond)
                said = told(chart_of_text, "\n".join(("3 0 0 1 1", "", " ".join(words))).encode())
                self.assertIn(f"line 3: number {at + 1} ({meaning}) is {beyond}, it must be from -32767 to 32767", said)

    def test_kinds(self):
        for kind in range(4):
            first, second = chart_of_text(f"{kind} 0 0 1 1".encode()).pieces[0].ends()
            self.assertEqual((first, second), ((0, 0, kind in (1, 3)), (1, 1, kind in (2, 3))))
        for kind in (-1, 4):
            said = told(chart_of_text, f"{kind} 0 0 1 1".encode())
            self.assertIn(f"line 1: number 1 (kind) is {kind}, it must be from 0 to 3", said)

    def test_no_length(self):
        self.assertIn("line 2: both ends are 5 -6", told(chart_of_text, b"\n3 5 -6 5 -6"))

    def test_words(self):
        self.assertIn("line 1: 4 words where a piece has five numbers", told(chart_of_text, b"3 0 0 1"))
        self.assertIn("line 1: 6 words", told(chart_of_text, b"3 0 0 1 1 1"))
        for word in ("x", "1.5", "1e3", "--1", "+1", "-", "1_0", "0x1", "٣", "9" * 5000):
            said = told(chart_of_text, f"3 0 0 {word} 1".encode())
            self.assertIn(f"line 1: number 4 (x2) is {word[:20]!r}, which is not a whole number", said)

    def test_characters(self):
        self.assertIn("line 2: byte 12 of the text is not UTF-8", told(chart_of_text, b"3 0 0 1 1\n# \xff"))
        self.assertIn("line 2: the character U+0001 cannot", told(chart_of_text, b"3 0 0 1 1\n# \x01"))
        self.assertIn("line 1: the character U+000C cannot", told(chart_of_text, b"3 0 0 1 1\f3 0 0 1 2\n"))
        self.assertIn("line 1: the character U+FFFF cannot", told(chart_of_text, "# \uffff".encode()))
        named = chart_of_text("\ufeff3 0 0 1 1 # Lüfter \u2028 🌀\r\n".encode()).pieces
        self.assertEqual(named, [Piece(3, 0, 0, 1, 1, "Lüfter \u2028 🌀")])


class File(unittest.TestCase):
    def test_scopes_example(self):
        self.assertEqual(file_of_chart(chart_of_text(SCOPES_TEXT)), SCOPES_FILE)
        self.assertEqual(text_of_chart(chart_of_file(SCOPES_FILE)), b"# kind x1 y1 x2 y2\n" + SCOPES_TEXT)

    def test_scopes_coordinates(self):
        for v, stored in ((LIMIT, "FE FF 03"), (-LIMIT, "FD FF 03"), (64, "80 01"), (-1, "01")):
            data = bytes.fromhex(f"01 03 {stored} 00 00 02")
            self.assertEqual(file_of_chart(Chart([Piece(3, v, 0, 0, 1)])), data)
            self.assertEqual(chart_of_file(data).pieces[0].x1, v)

    def test_longest(self):
        chart = Chart([Piece(3, LIMIT, LIMIT, -LIMIT, LIMIT)] * MOST_PIECES)
        self.assertEqual(len(file_of_chart(chart)), LONGEST_FILE)
        self.assertEqual((MOST_PIECES, LONGEST_FILE), (200, 2602))

    def test_counts(self):
        """One group below 128, two from there on; one piece more than a chart has is refused for its count."""
        for count in range(MOST_PIECES + 2):
            data = file_of_chart(Chart([Piece(3, 0, 0, 1, 1)] * count))
            front = [count] if count < 128 else [count | 128, 1]
            self.assertEqual([*data[: len(front)], len(data)], [*front, len(front) + 5 * count])
            if count <= MOST_PIECES:
                self.assertEqual(len(chart_of_file(data).pieces), count)
            else:
                self.assertIn(f"byte 0: the count is {count} (refused 3: ", told(chart_of_file, data))

    def test_older_files(self):
        """What an older reader took as one byte, from 0 to 64, is the same count in one group."""
        for count in range(65):
            data = bytes([count]) + bytes.fromhex("03 00 00 02 02") * count
            self.assertEqual(len(chart_of_file(data).pieces), count)

    def test_round_trips(self):
        for seed in range(300):
            chart = random_chart(seed)
            data = file_of_chart(chart)
            self.assertEqual(chart_of_file(data), chart)
            self.assertEqual(chart_of_text(text_of_chart(chart)).pieces, chart.pieces)

    def test_every_other_byte(self):
        """A changed, cut or longer file is refused with a place that it has, or is the file of another chart."""
        sound = file_of_chart(chart_of_text(b"3 0 -1 64 -8192\n1 -32767 32767 5 8191\n"))
        changed = (sound[:at] + bytes([byte]) + sound[at + 1 :] for at in range(len(sound)) for byte in range(256))
        others = [*changed, *(sound[:size] for size in range(len(sound))), *(sound + bytes([b]) for b in range(256))]
        refused = 0
        for data in others:
            try:
                self.assertEqual(file_of_chart(chart_of_file(data)), data)
            except Refused as e:
                refused += 1
                self.assertIn(f"byte {e.place}: ", str(e))
                self.assertLessEqual(e.place, len(data))
        self.assertGreater(refused, len(others) // 2)

    def test_recorded_answers(self):
        """Every file of the recorded readings gets its recorded numbers, or its refusal and place."""
        files, seen = recorded("r"), set()
        for data, answer in zip(files, answers().splitlines()):
            self.assertEqual(reading(data), answer, data.hex(" "))
            seen.add(answer.split()[1] if answer.startswith("refused") else "read")
        self.assertGreater(len(files), 100)
        self.assertEqual(seen, {"read", *"1234567"})

    def test_what_is_told(self):
        for data, said in (
            ("", "byte 0: the count is due (refused 1: "),
            ("C9", "byte 0: the count is cut (refused 1: "),
            ("C9 80", "byte 0: the count is cut (refused 1: "),
            ("80 00", "byte 0: the count has a group too many (refused 2: "),
            ("C8 81 00", "byte 0: the count has a group too many (refused 2: "),
            ("C8 81 80", "byte 0: the count does not end (refused 2: "),
            ("C8 01", "byte 2: the kind of piece 0 is due (refused 1: "),
            ("C9 01", f"byte 0: the count is 201 (refused 3: count above {MOST_PIECES})"),
            ("80 80 01", f"byte 0: the count is 16384 (refused 3: count above {MOST_PIECES})"),
            ("01 03 02", "byte 3: y1 of piece 0 is due (refused 1: "),
            ("01 03 02 80", "byte 3: y1 of piece 0 is cut (refused 1: "),
            ("01 03 80 00", "byte 2: x1 of piece 0 has a group too many (refused 2: "),
            ("01 03 80 80 80", "byte 2: x1 of piece 0 does not end (refused 2: "),
            ("01 04", "byte 1: the kind of piece 0 is 4 (refused 4: kind outside 0 to 3)"),
            ("01 03 80 80 04", "byte 2: x1 of piece 0 is 32768 (refused 5: "),
            ("01 03 FF FF 03", "byte 2: x1 of piece 0 is -32768 (refused 5: "),
            ("01 03 02 04 02 04", "byte 1: both ends of piece 0 are 1 2 (refused 6: "),
            ("00 00", "byte 1: there are no pieces (refused 7: "),
            ("01 03 00 00 02 02 09", "byte 6: piece 0 was the last (refused 7: "),
        ):
            self.assertIn(said, told(chart_of_file, bytes.fromhex(data)))


def reading(data):
    """As tests/recorded writes it."""
    try:
        chart = chart_of_file(data)
    except Refused as e:
        return f"refused {e.number} {e.place}"
    return " ".join(map(str, ["read", len(chart.pieces), *(v for piece in chart.pieces for v in piece.numbers())]))


class Listings(unittest.TestCase):
    def test_scopes_example(self):
        listing = listing_of_text(b"chart 2\ncomplete yes\npair 0 1 at 2 2 2 2\nsteps 5\n")
        self.assertEqual((listing.count, listing.complete, listing.steps), (2, True, 5))
        self.assertEqual(listing.meetings, [Meeting((0, 1), At(2, 2, 2, 2))])

    def test_overlap_and_no_pairs(self):
        listing = listing_of_text(b"chart 3\ncomplete no\npair 1 2 along -1 0 4 0\nsteps 4\n")
        self.assertFalse(listing.complete)
        self.assertEqual(listing.meetings, [Meeting((1, 2), Along(-1, 0, 4, 0))])
        self.assertEqual(listing_of_text(b"chart 0\ncomplete yes\nsteps 0\n").meetings, [])

    def test_recorded_answers(self):
        """Every listing of the recorded ones is read, and written out again it is the same."""
        listings = re.split(r"(?m)^(?=chart \d+$)", answers())[1:]
        self.assertEqual(len(listings), len(recorded("l")))
        self.assertGreater(len(listings), 100)
        for given in listings:
            self.assertEqual(rewritten(listing_of_text(given.encode())), given)

    def test_refused(self):
        said = told(listing_of_text, b"refused 3\n")
        self.assertEqual(said, f"line 1: the chart was refused with 3: count above {MOST_PIECES}")

    def test_damaged(self):
        sound = b"chart 3\ncomplete yes\npair 0 1 at 1 2 2 2\nsteps 5\n"
        for old, new, said in (
            (sound, b"", "line 1: `chart` and a number are due"),
            (b"chart 3", b"chart x", "line 1: word 2 is 'x', which is not a whole number"),
            (b"yes", b"maybe", "line 2: `complete yes` or `complete no` is due"),
            (b"at 1 2 2 2", b"at 1 2 2", "line 3: `pair a b at xlow xhigh ylow yhigh` or `pair a b along x1 y1 x2 y2` is due"),
            (b"at 1 2 2 2", b"along 1 2", "line 3: `pair a b at xlow xhigh ylow yhigh` or"),
            (b"at 1 2 2 2", b"at 1 2 2 y", "line 3: word 8 is 'y', which is not a whole number"),
            (b"at 1 2 2 2", b"at 2 1 2 2", "line 3: a low unit and a high one are equal or next to each other"),
            (b"at 1 2 2 2", b"at 1 2 2 4", "line 3: a low unit and a high one are equal or next to each other"),
            (b"0 1 at", b"1 0 at", "line 3: 1 0 is no pair of pieces below 3, lesser first"),
            (b"0 1 at", b"0 3 at", "line 3: 0 3 is no pair of pieces below 3, lesser first"),
            (b"steps 5\n", b"", "line 3: `steps` and a number are due, not 'pair 0 1 at 1 2 2 2'"),
            (b"steps 5\n", b"steps 5\nsteps 5\n", "line 4: `pair a b at xlow xhigh ylow yhigh` or"),
            (b"pair 0 1 at 1 2 2 2\nsteps 5\n", b"", "line 3: `steps` and a number are due"),
        ):
            self.assertIn(said, told(listing_of_text, sound.replace(old, new)))

    def test_older_programs(self):
        """What an older program wrote is refused, and the sentence says why."""
        for place, said in (
            ("at 2 2", "line 3: two units of the speed and two of the frequency are due after `at`: an older program"),
            ("along 2 2 2 2", "line 3: one shared point reads `at`, and `along` has two: an older program wrote it"),
        ):
            listing = f"chart 2\ncomplete yes\npair 0 1 {place}\nsteps 5\n"
            self.assertIn(said, told(listing_of_text, listing.encode()))


def rewritten(listing):
    rows = [f"chart {listing.count}", f"complete {'yes' if listing.complete else 'no'}"]
    for m in listing.meetings:
        rows.append(f"pair {m.pair[0]} {m.pair[1]} {m.place}")
    return "\n".join([*rows, f"steps {listing.steps}", ""])


if __name__ == "__main__":
    unittest.main()
