"""Draws a chart and its listed meetings as an SVG: speed across, frequency up."""
from collections import defaultdict
from math import ceil, dist, floor
from xml.sax.saxutils import escape, quoteattr

from formats import Along, At
from room import Box, Room

WIDTH, HEIGHT = 1100, 760
LEFT, TOP, BOTTOM, MARGIN = 84, 70, 84, 28
INK, FAINT, GRID, PAPER, MEETS, OVERLAP = "#1f2933", "#616e7c", "#e4e7eb", "#ffffff", "#c81e3a", "#f9c468"
COLOURS = (
    "#1769aa", "#0b8f7a", "#7b4fb3", "#b7791f", "#c2528b", "#4f7d1f",
    "#8b5a3c", "#2a9fc9", "#3f51b5", "#5b6b7b", "#d9600a", "#222222",
)
DASHES = ("", "9 5", "3 4", "12 4 3 4")
INCLUDED, EXCLUDED, RING, THICK = 3.5, 6, 8.5, 14
# A cell that is wider or taller than this is drawn.
SEEN = 4
SMALL, CHARACTER = 11, 0.6
LONGEST_NAME, MOST_PAIRS = 40, 4
# How far a label may stand off its mark. Among a crowd of places labels cover each other wherever they stand, and each
# stands right beside its mark.
GAPS, CROWD = (4, 10, 18, 30, 44), 200


def picture(chart, listing):
    """The SVG's text. The listing is of this chart."""
    parts = [*head(chart, listing), *marks_of(chart, listing, frame_of(chart, listing)), "</svg>"]
    return "".join(part + "\n" for part in parts).encode()


def frame_of(chart, listing):
    return Frame(chart.pieces, listing.meetings, legend_width(named(chart.pieces)))


def marks_of(chart, listing, frame):
    """Everything but the head. A mark of a piece has its number as data-piece, one of a place where pieces meet the place's
    number, in the listing's order, as data-place, and one of a name its pieces' numbers as data-pieces: a page finds them by
    these."""
    pieces, names = chart.pieces, named(chart.pieces)
    styles = styles_of(pieces)
    places = by_place(listing.meetings)
    room = Room(frame.box, [frame.line(piece) for piece in pieces])
    marks = [*drawn_ends(pieces, frame, styles, room), *drawn_meetings(places, frame, room)]
    return [
        *key(WIDTH - MARGIN - 450, HEIGHT - 16),
        *axes(frame, chart.headings),
        *drawn_overlaps(places, frame),
        *drawn_pieces(pieces, frame, styles),
        *marks,
        *drawn_tags(pieces, frame, styles, room),
        *drawn_pairs(places, frame, room),
        *legend(names, styles, frame),
    ]


class Frame:
    """Where a point of the chart stands in the picture."""

    def __init__(self, pieces, meetings, beside):
        corners = [end[:2] for piece in pieces for end in piece.ends()]
        for m in meetings:
            corners += m.place.corners()
        self.xs, self.ys = (span([corner[i] for corner in corners]) for i in (0, 1))
        self.box = Box(LEFT, TOP, WIDTH - MARGIN - beside, HEIGHT - BOTTOM)

    def at(self, x, y):
        across = (x - self.xs[0]) / (self.xs[1] - self.xs[0])
        up = (y - self.ys[0]) / (self.ys[1] - self.ys[0])
        box = self.box
        return box.left + across * (box.right - box.left), box.bottom - up * (box.bottom - box.top)

    def cell(self, place):
        """Where an At lies, from unit to unit."""
        (x1, y1), (x2, y2) = (self.at(*corner) for corner in place.corners())
        return Box(x1, y2, x2, y1)

    def line(self, piece):
        return *self.at(piece.x1, piece.y1), *self.at(piece.x2, piece.y2)


def span(values):
    """From the least to the greatest, and a little more on both sides."""
    least, most = min(values, default=0), max(values, default=1)
    spare = (most - least) * 0.025 or 1
    return least - spare, most + spare


def ticks(low, high):
    """Whole numbers a round step apart, at most nine or so."""
    step = 1
    while (high - low) / step > 9:
        step = step * 5 // 2 if str(step)[0] == "2" else step * 2
    return range(ceil(low / step) * step, floor(high / step) * step + 1, step)


def named(pieces):
    """The numbers of the pieces of each name."""
    names = defaultdict(list)
    for number, piece in enumerate(pieces):
        if piece.name:
            names[piece.name].append(number)
    return names


def styles_of(pieces):
    """A colour and a dash for each piece; pieces of one name share them."""
    looks = {}
    turns = [looks.setdefault(piece.name or number, len(looks)) for number, piece in enumerate(pieces)]
    return [(COLOURS[t % len(COLOURS)], DASHES[t // len(COLOURS) % len(DASHES)]) for t in turns]


def by_place(meetings):
    """The pairs that meet at each place, in the listing's order."""
    places = defaultdict(list)
    for meeting in meetings:
        places[meeting.place].append(meeting.pair)
    return places


def px(v):
    return f"{v:.1f}".removesuffix(".0")


def text(x, y, words, **attributes):
    return f'<text x="{px(x)}" y="{px(y)}"{written(attributes)}>{escape(words)}</text>'


def line(x1, y1, x2, y2, told="", **attributes):
    ends = f'x1="{px(x1)}" y1="{px(y1)}" x2="{px(x2)}" y2="{px(y2)}"'
    return f"<line {ends}{written(attributes)}>{tip(told)}</line>"


def circle(x, y, r, told="", **attributes):
    return f'<circle cx="{px(x)}" cy="{px(y)}" r="{px(r)}"{written(attributes)}>{tip(told)}</circle>'


def rectangle(box, **attributes):
    size = f'width="{px(box.right - box.left)}" height="{px(box.bottom - box.top)}"'
    return f'<rect x="{px(box.left)}" y="{px(box.top)}" {size}{written(attributes)}/>'


def tip(told):
    """What a browser shows where the pointer rests."""
    return f"<title>{escape(told)}</title>" if told else ""


def written(attributes):
    """stroke_width=2 becomes stroke-width="2", and role, which Python would not have as class, becomes class."""
    names = {name: name.replace("_", "-") for name in attributes} | {"role": "class"}
    return "".join(f" {names[n]}={quoteattr(str(v))}" for n, v in attributes.items() if v != "")


def head(chart, listing):
    pairs = f"{counted(len(listing.meetings), 'pair')} of {counted(len(chart.pieces), 'piece')} listed"
    told = f"{pairs} in {counted(listing.steps, 'step')}"
    if not listing.complete:
        told += "; not complete, for a piece is upright"
    return sheet(chart.headings.get("title", "Chart"), told)


def sheet(title, told):
    """The paper, with the title and what is told under it."""
    return [
        f'<svg xmlns="http://www.w3.org/2000/svg" viewBox="0 0 {WIDTH} {HEIGHT}" width="{WIDTH}" height="{HEIGHT}" '
        f'font-family="Helvetica, Arial, sans-serif" font-size="13" fill="{INK}">',
        tip(title),
        rectangle(Box(0, 0, WIDTH, HEIGHT), fill=PAPER),
        text(LEFT, 34, title, font_size=20, font_weight="bold"),
        text(LEFT, 55, told, fill=FAINT),
    ]


def counted(count, word):
    return f"{count:,} {word}" if count == 1 else f"{count:,} {word}s"


def key(at, y):
    """What the marks mean, in a row."""
    marks = y - 4
    yield circle(at, marks, INCLUDED, fill=FAINT, stroke=FAINT, stroke_width=1.8)
    yield text(at + 9, y, "end included", fill=FAINT)
    yield circle(at + 114, marks, EXCLUDED, fill="none", stroke=FAINT, stroke_width=1.8)
    yield text(at + 125, y, "end excluded", fill=FAINT)
    yield circle(at + 237, marks, RING, fill="none", stroke=MEETS, stroke_width=1.8)
    yield text(at + 250, y, "meeting, its pair", fill=FAINT)
    yield line(at + 378, marks, at + 386, marks, stroke=OVERLAP, stroke_width=THICK, stroke_linecap="round")
    yield text(at + 398, y, "overlap", fill=FAINT)


def axes(frame, headings):
    box = frame.box
    for x in ticks(*frame.xs):
        at, _ = frame.at(x, 0)
        yield line(at, box.top, at, box.bottom, stroke=FAINT if x == 0 else GRID)
        yield text(at, box.bottom + 20, f"{x:,}", text_anchor="middle", fill=FAINT)
    for y in ticks(*frame.ys):
        _, at = frame.at(0, y)
        yield line(box.left, at, box.right, at, stroke=FAINT if y == 0 else GRID)
        yield text(box.left - 10, at + 4.5, f"{y:,}", text_anchor="end", fill=FAINT)
    yield rectangle(box, fill="none", stroke=FAINT)
    across, up = headings.get("across", "speed"), headings.get("up", "frequency")
    middle = box.middle()
    yield text(middle[0], HEIGHT - 40, across, text_anchor="middle", font_size=14)
    yield text(0, 0, up, text_anchor="middle", font_size=14, transform=f"translate(26 {px(middle[1])}) rotate(-90)")


def drawn_overlaps(places, frame):
    """A thick stretch."""
    for number, (place, pairs) in enumerate(places.items()):
        if isinstance(place, Along):
            start, end = (frame.at(*corner) for corner in place.corners())
            look = dict(stroke=OVERLAP, stroke_width=THICK, stroke_linecap="round", data_place=number)
            yield line(*start, *end, told_of(place, pairs), role="overlap", **look)


def told_of(place, pairs):
    return ", ".join(f"pair {a} {b}" for a, b in pairs) + f" {place}"


def drawn_pieces(pieces, frame, styles):
    for number, (piece, (colour, dash)) in enumerate(zip(pieces, styles)):
        told = f"piece {number} {piece.name}".strip() + f": {' '.join(map(str, piece.numbers()))}"
        look = dict(stroke=colour, stroke_width=2.2, stroke_dasharray=dash, data_piece=number)
        yield line(*frame.line(piece), told, role="piece", **look)


def drawn_ends(pieces, frame, styles, room):
    """An excluded end is open, an included one filled and smaller, so that both show where one line ends and another
    begins anew."""
    ends = [(*end, number) for number, piece in enumerate(pieces) for end in piece.ends()]
    for x, y, included, number in sorted(ends, key=lambda end: end[2]):
        at, colour = frame.at(x, y), styles[number][0]
        role, r, fill = ("included", INCLUDED, colour) if included else ("excluded", EXCLUDED, PAPER)
        room.take(Box.around(*at, 2 * r, 2 * r))
        yield circle(*at, r, role=f"end {role}", fill=fill, stroke=colour, stroke_width=1.8, data_piece=number)


def drawn_meetings(places, frame, room):
    """A ring in the middle of a point's cell, and the cell where it can be told from a point."""
    for number, (place, pairs) in enumerate(places.items()):
        if isinstance(place, At):
            at, cell = frame.at(*place.middle()), frame.cell(place)
            if len(places) < CROWD:
                room.take(Box.around(*at, 2 * RING + 6, 2 * RING + 6))
            if max(cell.right - cell.left, cell.bottom - cell.top) > SEEN:
                look = dict(stroke=MEETS, stroke_width=0.9, stroke_dasharray="3 3", data_place=number)
                yield outline(cell, role="cell", **look)
            look = dict(fill="none", stroke=MEETS, stroke_width=1.8, data_place=number)
            yield circle(*at, RING, told_of(place, pairs), role="meeting", **look)


def outline(box, **attributes):
    """The edge of a box, which may be a line."""
    corners = ((box.left, box.top), (box.right, box.top), (box.right, box.bottom), (box.left, box.bottom))
    path = "M" + " L".join(f"{px(x)} {px(y)}" for x, y in corners) + " Z"
    return f'<path d="{path}" fill="none"{written(attributes)}/>'


def drawn_tags(pieces, frame, styles, room):
    """A piece's number, on the piece where there is room, with some to spare."""
    for number, (piece, (colour, _)) in enumerate(zip(pieces, styles)):
        wide = 8 + CHARACTER * SMALL * len(str(number))
        spots = along(*frame.line(piece))
        room_found = room.best([Box.around(*spot, wide + 14, 30) for spot in spots], own=number)
        box = Box.around(*room_found.middle(), wide, 16)
        yield rectangle(box, role="tag", rx=4, fill=PAPER, stroke=colour, stroke_width=1.4, data_piece=number)
        yield label(box, str(number), fill=colour, data_piece=number)


def label(box, words, **attributes):
    x, y = box.middle()
    return text(x, y + 4, words, font_size=SMALL, font_weight="bold", text_anchor="middle", **attributes)


def along(x1, y1, x2, y2):
    """Points of a line, from its middle outwards."""
    for step in range(16):
        for part in (0.5 + step / 40, 0.5 - step / 40):
            yield x1 + part * (x2 - x1), y1 + part * (y2 - y1)


def drawn_pairs(places, frame, room):
    """The pairs of a place, beside its ring or stretch; a thin line leads there from afar or from between two."""
    rings = [frame.at(*place.middle()) for place in places if isinstance(place, At)]
    halo = dict(stroke=PAPER, stroke_width=3, paint_order="stroke", stroke_linejoin="round")
    for number, (place, pairs) in enumerate(places.items()):
        x, y = frame.at(*place.middle()) if isinstance(place, At) else clear_of(rings, place, frame)
        words = pairs_told(pairs)
        wide = CHARACTER * SMALL * len(words)
        if len(places) < CROWD:
            box = room.best([Box.around(x + dx, y + dy, wide, SMALL) for dx, dy in around(wide, GAPS)])
            off = box.distance(x, y)
            if off > RING + 8 or any(box.distance(*ring) < 1.4 * off for ring in rings if ring != (x, y)):
                yield leader(*box.nearest(x, y), x, y, data_place=number)
        else:
            side = 1 if x + RING + wide < frame.box.right else -1
            box = Box.around(x + side * (RING + GAPS[0] + wide / 2), y, wide, SMALL)
        yield label(box, words, role="pair", fill=MEETS, data_place=number, **halo)


def pairs_told(pairs):
    words = " ".join(f"{a},{b}" for a, b in pairs[:MOST_PAIRS])
    return words + f" and {len(pairs) - MOST_PAIRS:,} more" if len(pairs) > MOST_PAIRS else words


def clear_of(rings, place, frame):
    """The point of a stretch that is farthest from every ring."""
    start, end = (frame.at(*corner) for corner in place.corners())
    spots = along(*start, *end)
    return max(spots, key=lambda spot: min((dist(spot, ring) for ring in rings), default=0))


def leader(x, y, to_x, to_y, **attributes):
    """A thin line to a ring."""
    part = 1 - RING / dist((x, y), (to_x, to_y))
    ends = x, y, x + part * (to_x - x), y + part * (to_y - y)
    return line(*ends, role="leader", stroke=MEETS, stroke_width=0.9, **attributes)


def around(wide, gaps):
    """Steps from a mark to the middle of a label beside it, the nearest first."""
    for gap in gaps:
        across, up = RING + gap + wide / 2, RING + gap + SMALL / 2
        yield from ((across, 0), (-across, 0), (0, -up), (0, up))
        yield from ((0.8 * dx * across, 0.8 * dy * up) for dx in (1, -1) for dy in (-1, 1))


def legend_width(names):
    longest = max((min(len(name), LONGEST_NAME) for name in names), default=0)
    return 110 + 7 * longest if names else 0


def legend(names, styles, frame):
    """The names with the numbers of their pieces."""
    left, at = frame.box.right + 20, frame.box.top + 10
    row = min(26, (frame.box.bottom - frame.box.top) / max(len(names), 1))
    size = min(13, 0.8 * row)
    for name, numbers in names.items():
        (colour, dash), mine = styles[numbers[0]], dict(data_pieces=" ".join(map(str, numbers)))
        yield line(left, at - 4, left + 24, at - 4, stroke=colour, stroke_width=2.6, stroke_dasharray=dash, **mine)
        yield text(left + 32, at, runs(numbers), fill=colour, font_weight="bold", font_size=px(size), **mine)
        short = name if len(name) <= LONGEST_NAME else name[: LONGEST_NAME - 1] + "…"
        yield text(left + 80, at, short, font_size=px(size), **mine)
        at += row


def runs(numbers):
    """0 1 2 5 as 0-2, 5."""
    parts = []
    for n in numbers:
        if parts and parts[-1][1] == n - 1:
            parts[-1][1] = n
        else:
            parts.append([n, n])
    return ", ".join(str(a) if a == b else f"{a}-{b}" for a, b in parts)
