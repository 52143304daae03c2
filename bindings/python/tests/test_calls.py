"""Every call, on the scope's examples and on the booster fan."""
import contextlib
import doctest
import io
import re
import threading
import unittest
from pathlib import Path

import mirtalughe

from mirtalughe import (
    LIMIT, MOST_PIECES, Accepted, Along, At, Crossing, End, EntryFault, FaultyEntry, Missing, Overlap, Piece, Point, Region,
    Swept, Turn,
)  # fmt: skip

EXAMPLES = Path(__file__).resolve().parents[3] / "examples"
FIRST = [(3, 0, 0, 4, 4), (3, 0, 4, 4, 0)]
GAP = [(3, 0, 0, 0, 10), (3, -5, 3, 5, 3), (3, -5, 6, 5, 6)]


class Calls(unittest.TestCase):
    def test_the_manual(self):
        failed, tried = doctest.testmod(mirtalughe)
        self.assertEqual((failed, tried), (0, 4))

    def test_the_readme(self):
        """README's example prints what README says."""
        text = (EXAMPLES.parent / "README.md").read_text()
        code, said = re.search(r"```python\n(.*?)```\n\nprints (.*)", text, re.S).groups()
        with contextlib.redirect_stdout(io.StringIO()) as printed:
            exec(code, {})
        self.assertEqual(printed.getvalue().splitlines(), re.findall("`(.*?)`", said)[:2])

    def test_turns(self):
        self.assertIs(mirtalughe.orient((0, 0), (4, 0), (4, 4)), Turn.COUNTER_CLOCKWISE)
        self.assertIs(mirtalughe.orient((0, 0), (4, 4), (4, 0)), Turn.CLOCKWISE)
        self.assertIs(mirtalughe.orient((0, 0), (2, 2), (4, 4)), Turn.COLINEAR)
        self.assertIs(mirtalughe.orient((-32768, -32768), (32767, -32768), (32767, 32767)), Turn.COUNTER_CLOCKWISE)

    def test_order_of_points(self):
        self.assertEqual(mirtalughe.compare_points(Point(2, 2, 3), Point(4, 4, 6)), 0)
        self.assertEqual(mirtalughe.compare_points(Point(2, 9, 3), Point(3, 0, 4)), -1)
        wide = Point(2**63 - 1, 0, 2**64 - 1)
        self.assertEqual(mirtalughe.compare_points(wide, Point(2**63 - 2, 0, 2**64 - 3)), 1)

    def test_files(self):
        data = bytes([2, 3, 0, 0, 8, 8, 3, 0, 8, 8, 0])
        self.assertEqual(mirtalughe.read(data), [Piece(*piece) for piece in FIRST])
        self.assertEqual(mirtalughe.write(FIRST), data)
        self.assertEqual((mirtalughe.read(b"\0"), mirtalughe.write([])), ([], b"\0"))
        fan = (EXAMPLES / "booster_fan.chart").read_bytes()
        self.assertEqual(mirtalughe.write(mirtalughe.read(fan)), fan)

    def test_meetings(self):
        self.assertEqual(mirtalughe.meeting(*FIRST), Crossing())
        touching = mirtalughe.meeting((3, 0, 0, 2, 0), (3, 2, 0, 5, 0))
        self.assertEqual(touching, Overlap(End(2, 0, True), End(2, 0, True)))
        self.assertIsNone(mirtalughe.meeting((3, 0, 0, 2, 0), (2, 2, 0, 5, 0)))
        lying_on = mirtalughe.meeting((3, -1, 0, 4, 0), (1, 5, 0, 1, 0))
        self.assertEqual(lying_on, Overlap(End(1, 0, False), End(4, 0, True)))

    def test_places(self):
        self.assertEqual(mirtalughe.place((3, 0, 0, 1, 1), (3, 0, 1, 2, 0)), At(2 / 3, 2 / 3))
        self.assertEqual(mirtalughe.place((3, -1, 0, 4, 0), (3, 5, 0, 1, 0)), Along(1, 0, 4, 0))
        self.assertEqual(mirtalughe.place((3, 0, 0, 2, 0), (3, 2, 0, 5, 0)), At(2, 0))
        self.assertIsNone(mirtalughe.place((3, 0, 0, 4, 0), (2, 2, 0, 3, 5)))

    def test_all_pairs(self):
        self.assertEqual(mirtalughe.all_pairs(GAP), [(1, 0), (2, 0)])
        self.assertEqual(mirtalughe.all_pairs([]), [])
        most = [(3, -100, i, 100, MOST_PIECES - 1 - i) for i in range(MOST_PIECES)]
        due = [(a, b) for a in range(MOST_PIECES) for b in range(a)]
        self.assertEqual(mirtalughe.all_pairs(most), due)

    def test_folded_line(self):
        """Two thirds of a fold, and a top speed that is a joint: the last piece alone includes both ends."""
        self.assertEqual(mirtalughe.fold(1, 3, 5), [(1, 0, 0, 3, 3), (3, 3, 3, 5, 1)])
        self.assertEqual(mirtalughe.fold(2, 4, 4), [(1, 0, 0, 2, 4), (3, 2, 4, 4, 0)])
        self.assertEqual(len(mirtalughe.fold(1, 1, 200)), 200)

    def test_plain_order(self):
        later_first = [(3, 3, 0, 5, 2), (3, 3, 2, 5, 0), (3, 0, 0, 2, 2), (3, 0, 2, 2, 0)]
        self.assertEqual(mirtalughe.plain_order(later_first), [(2, 3), (0, 1)])
        self.assertEqual(mirtalughe.plain_order(later_first), mirtalughe.sweep(later_first).pairs)

    def test_batch(self):
        wrong = [(3, 0, 0, 0, 0)]
        said = mirtalughe.sweep_batch([FIRST, wrong, [], GAP])
        self.assertEqual([said[0], *said[2:]], [mirtalughe.full_sweep(chart) for chart in (FIRST, [], GAP)])
        self.assertEqual((said[1].number, said[1].place), (6, 0))
        self.assertEqual(mirtalughe.sweep_batch([]), [])

    def test_open_chart(self):
        chart = mirtalughe.open_empty()
        self.assertEqual([mirtalughe.open_add(chart, piece) for piece in (*GAP, *FIRST)], [0, 1, 2, 3, 4])
        self.assertEqual(mirtalughe.open_drop(chart, 1), 1)
        self.assertEqual((mirtalughe.open_used(chart), set(mirtalughe.open_pairs(chart))), (4, {(2, 0), (3, 0), (4, 0), (4, 3)}))
        self.assertEqual(mirtalughe.open_add(chart, GAP[1]), 1)
        self.assertIn((1, 0), mirtalughe.open_pairs(chart))

    def test_upright_pieces(self):
        gap = [(3, 0, 0, 0, 10), (3, -5, 3, 5, 3), (3, -5, 6, 5, 6)]
        ported, full = mirtalughe.sweep(gap), mirtalughe.full_sweep(gap)
        self.assertEqual((ported.pairs, ported.steps, ported.complete), ([(0, 1)], 7, False))
        self.assertEqual((full.pairs, full.steps, full.ended, full.complete), ([(0, 1), (0, 2)], 8, True, True))
        self.assertEqual(mirtalughe.full_sweep(FIRST).pairs, mirtalughe.sweep(FIRST).pairs)

    def test_sweep_step_by_step(self):
        """ "the points visited are (0,0) (0,4) (2,2) (4,0) (4,4). Budget 2 lists nothing, 3 lists (0,1)." """
        visited = [(0, 0), (0, 4), (2, 2), (4, 0), (4, 4)]
        for budget in range(7):
            steps, pairs = min(budget, 5), [(0, 1)] if budget >= 3 else []
            last = Point(*visited[steps - 1], 1) if steps else None
            self.assertEqual(mirtalughe.full_sweep(FIRST, budget), Swept(pairs, steps, budget >= 5, True, last, 0))
            self.assertEqual(mirtalughe.sweep(FIRST, budget)._replace(examined=0), mirtalughe.full_sweep(FIRST, budget))
        self.assertLessEqual(mirtalughe.sweep(FIRST).examined, 2 * 5)
        self.assertEqual(mirtalughe.sweep([]), Swept([], 0, True, True, None, 0))
        third = mirtalughe.sweep([(3, 0, 0, 1, 1), (3, 0, 1, 2, 0)], 3).last
        self.assertEqual((third, third.exact()), (Point(2, 2, 3), (2 / Point(3, 0, 1).exact()[0],) * 2))

    def test_the_fan(self):
        """The library reads the file that the tool wrote, and finds the pairs that are listed."""
        pieces = mirtalughe.read((EXAMPLES / "booster_fan.chart").read_bytes())
        lines = (EXAMPLES / "booster_fan.listing.txt").read_text().splitlines()
        listed = [tuple(map(int, line.split()[1:3])) for line in lines if line.startswith("pair ")]
        self.assertGreater(len(listed), 20)
        self.assertEqual(sorted((b, a) for a, b in mirtalughe.all_pairs(pieces)), sorted(listed))
        swept = mirtalughe.sweep(pieces)
        if swept.complete:
            self.assertEqual((swept.pairs, f"steps {swept.steps}"), (listed, lines[-1]))
        self.assertLessEqual(set(swept.pairs), set(listed))

    def test_supplied_lists(self):
        for pairs, due in (
            ([(1, 0), (2, 0)], Accepted()),
            ([(0, 2), (0, 1)], Accepted()),
            (b"\0\1\0\2", Accepted()),
            ([], Missing((1, 0))),
            ([(0, 1)], Missing((2, 0))),
            ([(2, 0), (0, 3)], FaultyEntry(1, EntryFault.NO_PIECE)),
            ([(2, 2), (9, 9)], FaultyEntry(0, EntryFault.ITSELF)),
            ([(1, 0), (2, 1)], FaultyEntry(1, EntryFault.APART)),
            ([(1, 0), (2, 0), (0, 1)], FaultyEntry(2, EntryFault.REPEATED)),
        ):
            told = mirtalughe.check(GAP, pairs)
            self.assertEqual((type(told), told), (type(due), due), pairs)

    def test_regions(self):
        square = [(0, 0), (10, 0), (10, 10), (0, 10)]
        self.assertIs(mirtalughe.region(square, (5, 5)), Region.INSIDE)
        self.assertIs(mirtalughe.region(square, (10, 5)), Region.ON)
        self.assertIs(mirtalughe.region(square, (11, 5)), Region.OUTSIDE)

    def test_half_lines(self):
        self.assertIs(mirtalughe.half_line((3, 5, -1, 5, 1), (0, 0), (1, 0)), Turn.COLINEAR)
        self.assertIs(mirtalughe.half_line((3, 5, 0, 5, 1), (0, 0), (1, 0)), Turn.COUNTER_CLOCKWISE)
        self.assertIs(mirtalughe.half_line((3, 5, 0, 5, -1), (0, 0), (1, 0)), Turn.CLOCKWISE)
        self.assertIsNone(mirtalughe.half_line((3, 5, -1, 5, 1), (0, 0), (-1, 0)))

    def test_threads(self):
        """Calls from several threads at once answer each its own question."""
        charts = [[(3, 0, i, 9, i), (3, k, 0, k + 1, 99)] for i, k in enumerate(range(0, 8, 2), 1)]
        due, told = [mirtalughe.place(*chart) for chart in charts], {}
        threads = [
            threading.Thread(target=lambda i=i: told.update({i: [mirtalughe.place(*charts[i]) for _ in range(50)]}))
            for i in range(len(charts))
        ]
        for thread in threads:
            thread.start()
        for thread in threads:
            thread.join()
        self.assertEqual(told, {i: [place] * 50 for i, place in enumerate(due)})
        self.assertEqual(len(set(due)), len(charts))

    def test_largest(self):
        self.assertEqual(
            mirtalughe.read(mirtalughe.write([(3, LIMIT, -1, -LIMIT, 0)] * MOST_PIECES)),
            [Piece(3, LIMIT, -1, -LIMIT, 0)] * MOST_PIECES,
        )


if __name__ == "__main__":
    unittest.main()
