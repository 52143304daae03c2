"""The page's text: nothing to fetch, nothing that a name can break. What it does is tried in a browser (tests/page)."""
import re
import unittest
from html.parser import HTMLParser

import page
from formats import chart_of_text, listing_of_text
from test_command import ROOT, run

EXAMPLES = ROOT / "examples"
VOID = {"meta", "link", "input", "br", "col"}


class Read(HTMLParser):
    """A page taken apart again: its elements, which must close in order, and the cells of its rows."""

    def __init__(self, data):
        super().__init__()
        self.open, self.elements, self.rows, self.text = [], [], [], []
        self.feed(data.decode())
        self.close()

    def handle_starttag(self, name, attributes):
        self.elements.append((name, dict(attributes)))
        if name not in VOID:
            self.open.append(name)
        if name == "tr":
            self.rows.append([])
        elif name == "td":
            self.rows[-1].append("")

    def handle_startendtag(self, name, attributes):
        self.elements.append((name, dict(attributes)))

    def handle_endtag(self, name):
        assert self.open.pop() == name, name

    def handle_data(self, data):
        self.text.append(data)
        if "td" in self.open:
            self.rows[-1][-1] += data


def paged(text, listing, name="fan.txt"):
    return page.page([(name, chart_of_text(text.encode()), listing_of_text(listing.encode()))])


class Page(unittest.TestCase):
    def test_the_example_is_what_the_tool_makes(self):
        text, listing = EXAMPLES / "booster_fan.chart.txt", EXAMPLES / "booster_fan.listing.txt"
        made = page.page([(str(text), chart_of_text(text.read_bytes()), listing_of_text(listing.read_bytes()))])
        self.assertEqual(made, (EXAMPLES / "booster_fan.html").read_bytes())
        self.assertEqual(run("page", text, "-"), (0, made, ""))

    def test_nothing_to_fetch(self):
        data = (EXAMPLES / "booster_fan.html").read_bytes()
        read = Read(data)
        self.assertEqual(read.open, [])
        named = [
            value
            for _, attributes in read.elements
            for name, value in attributes.items()
            if name in ("src", "href", "srcset", "data")
        ]
        self.assertEqual(named, ["data:,"])
        self.assertNotRegex(data.decode(), r"(https?:|//[a-z]|@import|url\()")

    def test_rows(self):
        listing = "chart 3\ncomplete yes\npair 0 1 along 2 0 4 0\npair 0 2 at 0 1 0 0\nsteps 5\n"
        read = Read(paged("3 0 0 4 0 # a\n3 2 0 6 0\n3 0 1 1 -1 # c\n", listing))
        self.assertEqual(read.rows, [[], ["0 to 1", "0", "a (0)", "c (2)"], ["2 to 4 along", "0", "a (0)", "piece 1"]])
        places = [
            attributes["data-place"] for name, attributes in read.elements if name == "tr" and "data-place" in attributes
        ]
        self.assertEqual(places, ["1", "0"])

    def test_names_stay_names(self):
        """Marks of HTML in a name, a title, an axis or a file's name show as they are and make no element."""
        odd = "</script><b onclick='x'>&amp;\"q\" <!-- -->"
        text = f"# title: {odd}\n# across: {odd}\n# up: {odd}\n3 0 0 4 4 # {odd}\n3 0 4 4 0\n"
        plain = paged("# title: t\n3 0 0 4 4 # n\n3 0 4 4 0\n", "chart 2\ncomplete yes\npair 0 1 at 2 2 2 2\nsteps 5\n")
        read = Read(paged(text, "chart 2\ncomplete yes\npair 0 1 at 2 2 2 2\nsteps 5\n"))
        self.assertEqual(read.open, [])
        self.assertEqual([name for name, _ in read.elements], [name for name, _ in Read(plain).elements])
        self.assertEqual(read.rows[1][2], f"{odd} (0)")
        untitled = Read(paged("", "chart 0\ncomplete yes\nsteps 0\n", name="a/<b>.txt"))
        self.assertIn("<b>.txt", untitled.text)
        self.assertIn(b"<h1>?.txt</h1>", paged("", "chart 0\ncomplete yes\nsteps 0\n", name="a/\udcff.txt"))

    def test_several(self):
        text = EXAMPLES / "booster_fan.chart.txt"
        status, data, _ = run("page", text, "-", text, "-", given=b"# title: second\n3 0 0 4 4\n")
        read = Read(data)
        self.assertEqual((status, read.open), (0, []))
        tabs = [attributes for _, attributes in read.elements if attributes.get("role") == "tab"]
        fans = [attributes["id"] for name, attributes in read.elements if name == "section"]
        self.assertEqual([tab["aria-controls"] for tab in tabs], fans)
        ids = [attributes["id"] for _, attributes in read.elements if "id" in attributes]
        self.assertEqual(len(fans), 3)
        self.assertEqual(len(ids), len(set(ids)))

    def test_not_complete_is_told(self):
        for complete in ("yes", "no"):
            told = "".join(Read(paged("3 0 0 0 4\n", f"chart 1\ncomplete {complete}\nsteps 2\n")).text)
            self.assertEqual("Not complete: a piece is upright" in told, complete == "no")

    def test_reach(self):
        for span, due in ((0, 1), (200, 1), (201, 2), (3600, 20), (65534, 500)):
            self.assertEqual(page.within(span), due)

    def test_a_fault_leaves_the_page_alone(self):
        status, data, said = run("page", EXAMPLES / "booster_fan.chart.txt", "-", "-", given=b"3 0 0 0 0\n")
        self.assertEqual((status, data), (1, b""))
        self.assertTrue(re.match("chart.py: standard input, line 1: both ends are 0 0", said))


if __name__ == "__main__":
    unittest.main()
