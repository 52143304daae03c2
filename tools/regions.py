"""A region and peaks: the text that people write, the library's answers, and a picture of both."""
import re
from dataclasses import dataclass, field

import drawing
import formats
from room import Box

# How a peak of each answer is drawn: what is said of it, the mark's shape and whether it is filled.
LOOKS = {"inside": ("circle", True), "outside": ("circle", False), "on": ("square", True), "refused": ("cross", True)}
SIZE = 7


@dataclass
class Peak:
    x: int
    y: int
    name: str


@dataclass
class Region:
    corners: list = field(default_factory=list)
    peaks: list = field(default_factory=list)
    headings: dict = field(default_factory=dict)


def of_text(data):
    """Lines `corner X Y` and `peak X Y # NAME`; comments `# title: ..`, `# across: ..` and `# up: ..` as of a chart."""
    region = Region()
    for at, line in enumerate(formats.lines_of(data), 1):
        told, _, comment = (part.strip() for part in line.partition("#"))
        heading = re.fullmatch(r"(title|across|up): *(.*)", comment)
        if not told:
            if heading:
                region.headings[heading[1]] = heading[2]
            continue
        word, *rest = told.split()
        numbers = [formats.whole(number) for number in rest]
        if word not in ("corner", "peak") or len(numbers) != 2 or None in numbers:
            raise formats.Wrong(f"line {at}: `corner` or `peak` and two numbers are due, not {formats.shortly(told.split())}")
        if word == "corner":
            region.corners.append(tuple(numbers))
        else:
            region.peaks.append(Peak(*numbers, comment))
    return region


def answers_of_text(data):
    """A line for each peak, as examples/region.c prints it."""
    answers = []
    for at, line in enumerate(formats.lines_of(data), 1):
        word, *numbers = line.split() or [""]
        due = 2 if word == "refused" else 0
        if word not in LOOKS or len(numbers) != due or None in map(formats.whole, numbers):
            raise formats.Wrong(f"line {at}: `on`, `inside`, `outside` or `refused` and two numbers are due, not {formats.shortly([line])}")
        answers.append(line)
    return answers


def picture(region, answers):
    """The SVG's text: the outline, and each peak with its answer."""
    frame = drawing.Frame([], [], 0)
    points = [*region.corners, *((peak.x, peak.y) for peak in region.peaks)]
    frame.xs, frame.ys = (drawing.span([point[i] for point in points]) for i in (0, 1))
    title = region.headings.get("title", "Region")
    told = f"{drawing.counted(len(region.corners), 'corner')}, {drawing.counted(len(region.peaks), 'peak')}"
    parts = [
        *drawing.sheet(title, told),
        *drawing.axes(frame, region.headings),
        outline(region.corners, frame),
        *(part for peak, answer in zip(region.peaks, answers) for part in drawn_peak(peak, answer, frame)),
        *key(),
        "</svg>",
    ]
    return "".join(part + "\n" for part in parts).encode()


def outline(corners, frame):
    path = "M" + " L".join(" ".join(map(drawing.px, frame.at(*corner))) for corner in corners) + " Z" if corners else ""
    look = dict(fill="#dbe9f6", fill_rule="evenodd", stroke=drawing.COLOURS[0], stroke_width=2.2, role="outline")
    return f'<path d="{path}"{drawing.written(look)}/>'


def drawn_peak(peak, answer, frame):
    x, y = frame.at(peak.x, peak.y)
    words = f"{peak.name}: {answer}" if peak.name else answer
    yield mark(x, y, answer.split()[0], f"peak {peak.x} {peak.y} {words}")
    halo = dict(stroke=drawing.PAPER, stroke_width=3, paint_order="stroke", stroke_linejoin="round")
    side = 1 if x < frame.box.right - 8 * len(words) else -1
    anchor = "start" if side == 1 else "end"
    yield drawing.text(x + side * (SIZE + 5), y + 4, words, font_size=12, text_anchor=anchor, role="answer", **halo)


def mark(x, y, answer, told=""):
    shape, filled = LOOKS[answer]
    look = dict(role=f"peak {answer}", stroke=drawing.MEETS, stroke_width=1.8, fill=drawing.MEETS if filled else drawing.PAPER)
    if shape == "circle":
        return drawing.circle(x, y, SIZE, told, **look)
    if shape == "square":
        return f"<g>{drawing.tip(told)}{drawing.rectangle(Box.around(x, y, 2 * SIZE, 2 * SIZE), **look)}</g>"
    path = f"M{drawing.px(x - SIZE)} {drawing.px(y - SIZE)} l{2 * SIZE} {2 * SIZE} m0 {-2 * SIZE} l{-2 * SIZE} {2 * SIZE}"
    return f'<path d="{path}"{drawing.written(look)}>{drawing.tip(told)}</path>'


def key():
    """What the marks mean, in a row."""
    for number, answer in enumerate(LOOKS):
        x, y = drawing.WIDTH - 470 + 115 * number, drawing.HEIGHT - 20
        yield mark(x, y, answer)
        yield drawing.text(x + SIZE + 6, y + 4, answer, fill=drawing.FAINT)
