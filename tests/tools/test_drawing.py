"""The picture of a chart: its marks are where the chart and the listing have them."""
import itertools
import unittest
import xml.etree.ElementTree as tree
from math import dist

import drawing
from formats import MOST_PIECES, At, Chart, Listing, Meeting, Piece, chart_of_text, listing_of_text

SVG = "{http://www.w3.org/2000/svg}"


class Picture:
    """A picture taken apart again."""

    def __init__(self, chart, listing):
        self.data = drawing.picture(chart, listing)
        self.marks = list(tree.fromstring(self.data).iter())

    def marked(self, role):
        return [mark for mark in self.marks if role in mark.get("class", "").split()]

    def words(self):
        return [mark.text for mark in self.marks if mark.tag == SVG + "text"]

    def pairs(self):
        return sorted(word for mark in self.marked("pair") for word in mark.text.split())


def drawn(text, listing):
    return Picture(chart_of_text(text.encode()), listing_of_text(listing.encode()))


def numbers(mark, *names):
    return tuple(float(mark.get(name)) for name in names)


def ends_of(mark):
    x1, y1, x2, y2 = numbers(mark, "x1", "y1", "x2", "y2")
    return (x1, y1), (x2, y2)


def off_line(point, mark):
    """How far a point lies off a drawn line."""
    start, end = ends_of(mark)
    return dist(start, point) + dist(point, end) - dist(start, end)


class Drawing(unittest.TestCase):
    def test_first_example(self):
        picture = drawn("3 0 0 4 4\n3 0 4 4 0\n", "chart 2\ncomplete yes\npair 0 1 at 2 2 2 2\nsteps 5\n")
        (ring,) = picture.marked("meeting")
        for piece in picture.marked("piece"):
            self.assertLess(off_line(numbers(ring, "cx", "cy"), piece), 0.2)
        self.assertEqual(picture.pairs(), ["0,1"])
        self.assertIn("1 pair of 2 pieces listed in 5 steps", picture.words())
        self.assertEqual(ring.find(SVG + "title").text, "pair 0 1 at 2 2 2 2")

    def test_speed_across_and_frequency_up(self):
        (piece,) = drawn("3 -5 100 7 900\n", "chart 1\ncomplete yes\nsteps 2\n").marked("piece")
        (x1, y1), (x2, y2) = ends_of(piece)
        self.assertLess(x1, x2)
        self.assertGreater(y1, y2)

    def test_units_title_and_names(self):
        text = "# title: Fan <1> & 2\n# across: speed, rpm\n# up: frequency, Hz\n3 0 0 4 4 # shaft & \"blades\"\n"
        words = drawn(text, "chart 1\ncomplete yes\nsteps 2\n").words()
        for word in ("Fan <1> & 2", "speed, rpm", "frequency, Hz", 'shaft & "blades"'):
            self.assertIn(word, words)

    def test_every_piece_has_its_number(self):
        text = "".join(f"3 0 {i} 9 {i}\n" for i in range(MOST_PIECES))
        picture = drawn(text, f"chart {MOST_PIECES}\ncomplete yes\nsteps {2 * MOST_PIECES}\n")
        self.assertEqual(len(picture.marked("piece")), MOST_PIECES)
        self.assertEqual(len(picture.marked("tag")), MOST_PIECES)
        self.assertLessEqual({str(i) for i in range(MOST_PIECES)}, set(picture.words()))

    def test_ends_open_and_filled(self):
        picture = drawn("0 0 0 1 1\n1 2 0 3 1\n2 4 0 5 1\n3 6 0 7 1\n", "chart 4\ncomplete yes\nsteps 8\n")
        pieces = [ends_of(mark) for mark in picture.marked("piece")]
        filled = {pieces[1][0], pieces[2][1], *pieces[3]}
        for role, ends in (("included", filled), ("excluded", set(sum(pieces, ())) - filled)):
            marks = picture.marked(role)
            self.assertEqual({numbers(mark, "cx", "cy") for mark in marks}, ends)
            self.assertTrue(all((mark.get("fill") == drawing.PAPER) == (role == "excluded") for mark in marks))

    def test_an_excluded_end_shows_around_an_included_one(self):
        picture = drawn("1 0 0 2 2\n3 2 2 4 0\n", "chart 2\ncomplete yes\nsteps 3\n")
        (open_end,) = picture.marked("excluded")
        (filled,) = (mark for mark in picture.marked("included") if mark.get("cx") == open_end.get("cx"))
        self.assertLess(float(filled.get("r")), float(open_end.get("r")) - 2)

    def test_overlaps(self):
        """A stretch is a band, and one shared point a ring."""
        listing = "chart 3\ncomplete yes\npair 0 1 along 2 0 4 0\npair 1 2 at 6 6 0 0\nsteps 5\n"
        picture = drawn("3 0 0 4 0\n3 2 0 6 0\n3 6 0 9 0\n", listing)
        pieces = [ends_of(mark) for mark in picture.marked("piece")]
        (stretch,) = picture.marked("overlap")
        self.assertEqual(ends_of(stretch), (pieces[1][0], pieces[0][1]))
        self.assertGreater(float(stretch.get("stroke-width")), 10)
        (ring,) = picture.marked("meeting")
        self.assertEqual(numbers(ring, "cx", "cy"), pieces[1][1])
        self.assertEqual(picture.pairs(), ["0,1", "1,2"])

    def test_a_cell_where_it_is_seen(self):
        """The ring is in the middle of the cell, which holds the crossing, and whose sides are the units."""
        picture = drawn("3 0 0 1 1\n3 0 1 2 0\n", "chart 2\ncomplete yes\npair 0 1 at 0 1 0 1\nsteps 5\n")
        (cell,), (ring,) = picture.marked("cell"), picture.marked("meeting")
        corners = [tuple(map(float, corner.split())) for corner in cell.get("d")[1:-2].split(" L")]
        steep, falling = (ends_of(mark) for mark in picture.marked("piece"))
        (left, bottom), (right, top) = steep
        self.assertEqual(corners, [(left, top), (right, top), (right, bottom), (left, bottom)])
        self.assertEqual(falling[0], (left, top))
        x, y = numbers(ring, "cx", "cy")
        self.assertAlmostEqual(x, (left + right) / 2, delta=0.1)
        self.assertAlmostEqual(y, (top + bottom) / 2, delta=0.1)

    def test_no_cell_of_a_whole_point_or_a_small_one(self):
        listing = "chart 2\ncomplete yes\npair 0 1 at {}\nsteps 5\n"
        for text, place in (("3 0 0 4 4\n3 0 4 4 0\n", "2 2 2 2"), ("3 0 0 4000 3999\n3 0 4 4000 0\n", "3 4 3 4")):
            self.assertEqual(drawn(text, listing.format(place)).marked("cell"), [])

    def test_one_ring_for_one_place(self):
        pairs = "".join(f"pair {a} {b} at 1 1 1 1\n" for a, b in itertools.combinations(range(3), 2))
        picture = drawn("3 0 0 2 2\n3 0 1 2 1\n3 0 2 2 0\n", f"chart 3\ncomplete yes\n{pairs}steps 7\n")
        self.assertEqual(len(picture.marked("meeting")), 1)
        self.assertEqual(picture.pairs(), ["0,1", "0,2", "1,2"])

    def test_not_complete_is_told(self):
        words = drawn("3 0 0 0 4\n", "chart 1\ncomplete no\nsteps 2\n").words()
        self.assertIn("0 pairs of 1 piece listed in 2 steps; not complete, for a piece is upright", words)

    def test_no_piece(self):
        picture = drawn("", "chart 0\ncomplete yes\nsteps 0\n")
        self.assertEqual(picture.marked("piece"), [])

    def test_most_of_everything(self):
        """As many pieces as a chart has, of which every two meet, all at places of their own: each gets a ring, and labels
        stay inside."""
        pieces = [Piece(3, -32767, 300 * i - 30000, 32767, 30000 - 300 * i) for i in range(MOST_PIECES)]
        pairs = list(itertools.combinations(range(MOST_PIECES), 2))
        places = [[300 * number - 30000 for number in pair] for pair in pairs]
        meetings = [Meeting(pair, At(x, x, y, y)) for pair, (x, y) in zip(pairs, places)]
        picture = Picture(Chart(pieces), Listing(MOST_PIECES, True, meetings, 2 * MOST_PIECES + len(pairs)))
        self.assertEqual(len(picture.marked("meeting")), len(pairs))
        self.assertEqual(picture.pairs(), sorted(f"{a},{b}" for a, b in pairs))
        for mark in picture.marked("pair"):
            x, y = numbers(mark, "x", "y")
            self.assertTrue(0 < x < drawing.WIDTH and 0 < y < drawing.HEIGHT)

    def test_labels_stand_apart(self):
        """Few meetings with room around them: no label covers another."""
        meetings = [Meeting((0, i + 1), At(10 * i, 10 * i, 50, 50)) for i in range(9)]
        pieces = [Piece(3, 0, 50, 90, 50), *(Piece(3, 10 * i, 0, 10 * i, 100) for i in range(9))]
        labels = Picture(Chart(pieces), Listing(10, True, meetings, 1)).marked("pair")
        places = [numbers(mark, "x", "y") for mark in labels]
        self.assertTrue(all(dist(p, q) > 20 for p, q in itertools.combinations(places, 2)))

    def test_the_same_twice(self):
        chart, listing = chart_of_text(b"3 0 0 4 4\n"), listing_of_text(b"chart 1\ncomplete yes\nsteps 2\n")
        self.assertEqual(drawing.picture(chart, listing), drawing.picture(chart, listing))


if __name__ == "__main__":
    unittest.main()
