"""The page in a real browser: it opens without a word in the console and fetches nothing, its table has the listing's rows, a
speed marks what meets there and dims the rest, a ring and its row mark each other, and all of it goes by keyboard too."""
import base64
import itertools
import os
import random
import unittest
from fractions import Fraction
from math import ceil, floor
from pathlib import Path

import page
from browser import Browser
from formats import At, Chart, Listing, Meeting, Piece, chart_of_text, listing_of_text
from meetings import from_to, rows_of

ROOT = Path(__file__).parents[2]
MADE = ROOT / "target/page"
FAN = ROOT / "examples/booster_fan"
ENTER, DOWN, RIGHT, END = 13, 40, 39, 35

# What a test asks of the page: the pairs of rows with a class, and the numbers of pieces and of places with it.
ASKED = """(() => {
  const shown = document.querySelector(".fan:not([hidden])"), numbers = (name, from) =>
    [...new Set(Array.from(shown.querySelectorAll(from), (mark) => Number(mark.dataset[name])))].sort((a, b) => a - b);
  return { rows: Array.from(shown.querySelectorAll("tr.NAME"), (tr) => [Number(tr.dataset.a), Number(tr.dataset.b)]),
    pieces: numbers("piece", ".piece.NAME"), places: numbers("place", ".meeting.NAME, .overlap.NAME") };
})()"""
CELLS = "Array.from(document.querySelectorAll('tbody tr'), (tr) => Array.from(tr.cells, (cell) => cell.textContent))"
MARKS = "Array.from(document.querySelectorAll('.picture [data-piece]'))"
FAINT = f"{MARKS}.map((mark) => [mark.classList.contains('on'), Number(getComputedStyle(mark).opacity)])"
MOVE = """((speed, within) => { const slider = document.querySelector(".slider");
  document.querySelector(".within").value = within; slider.value = speed; slider.dispatchEvent(new Event("input")); })"""
# The rings that no other mark covers in their middle, and whether the marked row shows in the table's frame.
FREE = """Array.from(document.querySelectorAll(".meeting")).filter((ring) => { const box = ring.getBoundingClientRect();
  return document.elementFromPoint(box.x + box.width / 2, box.y + box.height / 2) === ring;
}).map((ring) => Number(ring.dataset.place))"""
INSIDE = """(([row, table]) => row.top >= table.top && row.bottom <= table.bottom)(
  ["tr.hit", ".table"].map((name) => document.querySelector(name).getBoundingClientRect()))"""
STEPS = """((count) => { const slider = document.querySelector(".slider"), start = performance.now();
  for (let k = 0; k < count; k++) {
    slider.value = (32000 / count) * k; slider.dispatchEvent(new Event("input")); document.body.offsetHeight;
  }
  return (performance.now() - start) / count; })"""


def fan():
    return chart_of_text(Path(f"{FAN}.chart.txt").read_bytes()), listing_of_text(Path(f"{FAN}.listing.txt").read_bytes())


def named(name, number):
    return f"{name} ({number})" if name else f"piece {number}"


def many(count):
    """So many tones across all speeds, with every meeting of two of them, and names that are hard to show."""
    rnd, found = random.Random(7), []
    pieces = [Piece(3, 0, rnd.randrange(32768), 32000, rnd.randrange(32768), f"tone {i // 2} <&>") for i in range(count)]
    for (a, p), (b, q) in itertools.combinations(enumerate(pieces), 2):
        first, last = p.y1 - q.y1, p.y2 - q.y2
        if first * last <= 0 and first != last:
            part = Fraction(first, first - last)
            found.append((32000 * part, p.y1 + (p.y2 - p.y1) * part, (a, b)))
    cells = ((pair, At(floor(x), ceil(x), floor(y), ceil(y))) for x, y, pair in sorted(found))
    return Chart(pieces, {"title": f"{count} tones"}), Listing(count, True, [Meeting(*cell) for cell in cells], 1)


def made(name, *fans):
    MADE.mkdir(parents=True, exist_ok=True)
    path = MADE / f"{name}.html"
    path.write_bytes(page.page([(str(i), *fan) for i, fan in enumerate(fans)]))
    return path


class Page(unittest.TestCase):
    @classmethod
    def setUpClass(cls):
        cls.browser = Browser()

    @classmethod
    def tearDownClass(cls):
        cls.browser.close()

    def tearDown(self):
        """No word in the console, and nothing asked for but the page; what the page has within it is not fetched."""
        self.assertEqual(self.browser.said, [])
        self.assertEqual(
            len([name for name in self.browser.fetched if not name.startswith("data:")]), 1, self.browser.fetched
        )

    def open(self, path, asked=""):
        return self.browser.open(path, asked)

    def marked(self, name):
        return self.browser.run(ASKED.replace("NAME", name))

    def photograph(self, name, **look):
        data = base64.b64decode(self.browser.ask("Page.captureScreenshot", format="png", **look)["data"])
        self.assertEqual(data[:4], b"\x89PNG")
        self.assertGreater(len(data), 20000)
        (MADE / f"{name}.png").write_bytes(data)

    def due(self, fan, low, high):
        """What meets between two speeds, from the listing alone."""
        chart, listing = fan
        rows = [list(row.pieces) for row in rows_of(chart, listing) if row.within(low, high)]
        places = list(dict.fromkeys(meeting.place for meeting in listing.meetings))
        met = [meeting for meeting in listing.meetings if list(meeting.pair) in rows]
        return {"rows": rows, "pieces": sorted(set(sum(rows, []))), "places": sorted({places.index(m.place) for m in met})}

    def test_the_example(self):
        """The kept page: its rows are the listing's, and nothing is dim before a speed is typed; then all but what meets."""
        fans = fan()
        rows = rows_of(*fans)
        self.open(f"{FAN}.html")
        told = [(from_to(*row.speed), from_to(*row.frequency), *map(named, row.names, row.pieces)) for row in rows]
        self.assertEqual([(cells[0].removesuffix(" along"), *cells[1:]) for cells in self.browser.run(CELLS)], told)
        self.assertEqual(len(told), len(fans[1].meetings))
        self.assertEqual({tuple(mark) for mark in self.browser.run(FAINT)}, {(False, 1)})
        self.browser.run("document.querySelector('.speed').focus()")
        for digit in "2603":
            self.browser.press(digit, ord(digit), digit)
        self.assertEqual({(on, faint < 0.5) for on, faint in self.browser.run(FAINT)}, {(True, False), (False, True)})
        reach = page.within(3600)
        due = [cells for row, cells in zip(rows, told) if row.within(2603 - reach, 2603 + reach)]
        said = self.browser.run("document.querySelector('.said').textContent")
        self.assertTrue(due and said.startswith(f"At 2603 rpm, give or take {reach}: "))
        for _, frequency, a, b in due[:4]:
            self.assertIn(f"{frequency} Hz is {a} or {b}", said)
        self.photograph("booster_fan")

    def test_the_slider(self):
        """At speeds around every meeting, and with several reaches, just those are marked that the listing has there."""
        fans = fan()
        speeds = sorted(
            {s + d for row in rows_of(*fans) for s in row.speed for d in (-21, -20, -1, 0, 1, 20, 21) if 0 <= s + d <= 3600}
        )
        self.open(f"{FAN}.html")
        tried = 0
        for reach in (0, 20):
            for speed in speeds[:: 1 if reach == 0 else 5]:
                self.browser.run(f"{MOVE}({speed}, {reach})")
                self.assertEqual(self.marked("on"), self.due(fans, speed - reach, speed + reach), (speed, reach))
                tried += 1
        self.assertGreater(tried, 100)
        self.browser.run("new Promise((done) => setTimeout(done, 600))")
        self.assertEqual(self.browser.run("location.hash"), f"#fan=0&speed={speed}&within={reach}")
        self.browser.click("document.querySelector('.all')")
        self.assertEqual(self.marked("on"), {"rows": [], "pieces": [], "places": []})

    def test_hovering(self):
        """A ring marks the rows of its place, and a row its ring and its two pieces."""
        fans = fan()
        listing = fans[1]
        places = list(dict.fromkeys(meeting.place for meeting in listing.meetings))
        self.open(f"{FAN}.html")
        numbers = self.browser.run(FREE)
        self.assertGreater(len(numbers), len(places) // 3)
        for number in numbers:
            self.browser.point_at(f"document.querySelector('.meeting[data-place=\"{number}\"]')")
            due = [list(m.pair) for m in listing.meetings if m.place == places[number]]
            told = self.marked("hit")
            self.assertEqual((told["rows"], told["places"]), (due, [number]))
            self.assertTrue(self.browser.run(INSIDE))
        rows = rows_of(*fans)
        for at in range(0, 6):
            self.browser.run("document.querySelector('.table').scrollTop = 0")
            self.browser.point_at(f"document.querySelectorAll('tbody tr')[{at}].cells[3]")
            pair = list(rows[at].pieces)
            place = places.index(next(m.place for m in listing.meetings if list(m.pair) == pair))
            self.assertEqual(self.marked("hit"), {"rows": [pair], "pieces": sorted(pair), "places": [place]})
        self.browser.point_at("document.querySelector('h1')")
        self.assertEqual(self.marked("hit")["rows"], [])

    def test_keyboard(self):
        """One stop for all rows; arrows go from row to row and mark the ring, Enter runs the fan at that speed."""
        rows = rows_of(*fan())
        self.open(f"{FAN}.html")
        self.assertEqual(self.browser.run("document.querySelectorAll('tbody [tabindex=\"0\"]').length"), 1)
        self.browser.run("document.querySelector('.all').focus()")
        self.browser.press("Tab", 9)
        self.browser.press("ArrowDown", DOWN)
        self.browser.press("ArrowDown", DOWN)
        self.assertEqual(self.marked("hit")["rows"], [list(rows[2].pieces)])
        self.browser.press("Enter", ENTER, "\r")
        self.assertEqual(self.browser.run("Number(document.querySelector('.speed').value)"), rows[2].speed[0])
        self.assertIn(list(rows[2].pieces), self.marked("on")["rows"])
        self.browser.press("End", END)
        self.assertEqual(self.marked("hit")["rows"], [list(rows[-1].pieces)])
        self.browser.run("document.querySelector('.slider').focus()")
        self.browser.press("ArrowRight", RIGHT)
        self.assertEqual(self.browser.run("Number(document.querySelector('.speed').value)"), rows[2].speed[0] + 1)

    def test_a_click_on_a_ring(self):
        first = rows_of(*fan())[0]
        self.open(f"{FAN}.html")
        self.browser.click("document.querySelector('.meeting[data-place=\"0\"]')")
        self.assertEqual(self.browser.run("Number(document.querySelector('.speed').value)"), first.speed[0])

    def test_without_scripts(self):
        """The picture and the table stand as they are; controls that would do nothing do not show."""
        self.browser.ask("Emulation.setScriptExecutionDisabled", value=True)
        self.addCleanup(self.browser.ask, "Emulation.setScriptExecutionDisabled", value=False)
        self.browser.go(Path(f"{FAN}.html").as_uri())
        shown = (
            "['.controls', '.picture', 'tbody tr'].map((name) => document.querySelector(name).getClientRects().length > 0)"
        )
        self.assertEqual(self.browser.run(shown), [False, True, True])

    def test_nothing_meets(self):
        """No piece, and one piece: nothing breaks, and that nothing meets is said."""
        for chart in (Chart([]), Chart([Piece(3, 5, 0, 9, 0)])):
            self.open(made("nothing", (chart, Listing(len(chart.pieces), True, [], 0))), "#speed=7&within=1")
            said = self.browser.run("document.querySelector('.said').textContent")
            self.assertEqual(said, "At 7, give or take 1, no two tones meet.")
            self.assertEqual(self.browser.said, [])

    def test_several_fans(self):
        """A row of fans: one shows, by click and by arrow; each keeps its own speed; a name may ask for one."""
        overlap = chart_of_text(b"3 0 0 4 0 # a\n3 2 0 6 0 # b\n"), listing_of_text(
            b"chart 2\ncomplete yes\npair 0 1 along 2 0 4 0\nsteps 4\n"
        )
        path = made("several", fan(), overlap, many(20))
        shown = "Array.from(document.querySelectorAll('.fan:not([hidden])'), (fan) => fan.id)"
        self.open(path)
        self.assertEqual(self.browser.run(shown), ["fan-0"])
        self.browser.click("document.querySelector('#tab-1')")
        self.assertEqual(self.browser.run(shown), ["fan-1"])
        self.browser.press("ArrowRight", RIGHT)
        self.assertEqual(self.browser.run(shown), ["fan-2"])
        self.assertEqual(self.browser.run("document.activeElement.id"), "tab-2")
        self.open(path, "#fan=1&speed=3&within=0")
        self.assertEqual(self.browser.run(shown), ["fan-1"])
        self.assertEqual(self.marked("on"), {"rows": [[0, 1]], "pieces": [0, 1], "places": [0]})
        self.photograph("several")

    def test_print(self):
        """On paper every fan and every row is there, and no control."""
        path = made("printed", fan(), many(30))
        self.open(path, "#speed=2603")
        self.browser.ask("Emulation.setEmulatedMedia", media="print")
        self.addCleanup(self.browser.ask, "Emulation.setEmulatedMedia", media="")
        seen = "Array.from(document.querySelectorAll(WHAT), (e) => e.getClientRects().length > 0)"
        rows = self.browser.run(seen.replace("WHAT", "'tbody tr'"))
        self.assertEqual((len(rows), all(rows)), (sum(len(f[1].meetings) for f in (fan(), many(30))), True))
        self.assertNotIn(True, self.browser.run(seen.replace("WHAT", "'.controls *, .fans *'")))
        data = base64.b64decode(self.browser.ask("Page.printToPDF")["data"])
        (MADE / "printed.pdf").write_bytes(data)
        self.assertEqual(data[:5], b"%PDF-")

    def test_without_colour(self):
        """What is marked differs from the rest by weight and not by colour alone; photographed without any colour."""
        self.open(f"{FAN}.html", "#speed=2603")
        wide = "parseFloat(getComputedStyle(document.querySelector(WHAT)).strokeWidth)"
        for mark in ("meeting", "piece"):
            on, off = (self.browser.run(wide.replace("WHAT", f"'.{mark}{which}'")) for which in (".on", ":not(.on)"))
            self.assertGreater(on, 1.5 * off)
        bar = "getComputedStyle(document.querySelector('tr.on td')).boxShadow"
        self.assertIn("inset", self.browser.run(bar))
        self.browser.ask("Emulation.setEmulatedVisionDeficiency", type="achromatopsia")
        self.addCleanup(self.browser.ask, "Emulation.setEmulatedVisionDeficiency", type="none")
        self.photograph("without_colour")

    def test_two_hundred_pieces(self):
        """Over ten thousand meetings: the page opens, and a step of the slider is quick enough to follow a hand."""
        fans = many(200)
        self.assertGreater(len(fans[1].meetings), 10000)
        opened = self.open(made("two_hundred", fans))
        self.assertEqual(self.browser.run("document.querySelectorAll('tbody tr').length"), len(fans[1].meetings))
        step = self.browser.run(f"{STEPS}(40)")
        reach = page.within(32000)
        self.assertEqual(self.marked("on")["rows"], self.due(fans, 31200 - reach, 31200 + reach)["rows"])
        print(
            f"page: 200 pieces, {len(fans[1].meetings):,} meetings: open in {opened:.1f} s, {step:.0f} ms a step of the slider"
        )
        self.assertLess(step, 1000)
        self.assertLess(opened, 60)
        self.photograph("two_hundred")


if __name__ == "__main__":
    os.chdir(ROOT)
    unittest.main()
