"""One HTML page of a chart or of several: the picture, the table of its meetings, and a running speed that shows which tones
are then ambiguous. Nothing is fetched; without scripts the picture and the table still stand."""
from html import escape
from pathlib import Path

import drawing
import meetings
from drawing import counted, px

HERE = Path(__file__).resolve().parent
POLICY = "default-src 'none'; img-src data:; style-src 'unsafe-inline'; script-src 'unsafe-inline'"
PAGE = """<!doctype html>
<html lang="en">
<head>
<meta charset="utf-8">
<meta name="viewport" content="width=device-width, initial-scale=1">
<meta http-equiv="Content-Security-Policy" content="{policy}">
<link rel="icon" href="data:,">
<title>{title}</title>
<style>
{style}</style>
</head>
<body>
{fans}<script>
{script}</script>
</body>
</html>
"""
FAN = """<section class="fan{crowded}" id="fan-{number}" data-pieces="{count}">
<h1>{title}</h1>
<p class="count">{told}</p>
{incomplete}<form class="controls" hidden>
<label for="speed-{number}">{across}</label>
<input class="slider" type="range" min="{least}" max="{most}" step="1" value="{middle}" aria-label="{across}">
<input class="speed" id="speed-{number}" type="number" min="{least}" max="{most}" step="1">
<label for="within-{number}">give or take</label>
<input class="within" id="within-{number}" type="number" min="0" max="{span}" step="1" value="{within}">
<button class="all" type="button">All speeds</button>
</form>
<p class="said" role="status" data-unit="{unit}" data-read="{read}"></p>
<div class="both">
<figure>
{picture}</figure>
<div class="table">
<table>
<colgroup><col class="narrow"><col class="narrow"><col><col></colgroup>
<thead>
<tr><th scope="col">{across}</th><th scope="col">{up}</th><th scope="col">tone</th><th scope="col">or tone</th></tr>
</thead>
<tbody>
{rows}</tbody>
</table>
</div>
</div>
</section>
"""


def page(fans):
    """The page's bytes, of a name, a chart and its listing for each fan."""
    titles = [chart.headings.get("title") or ("Chart" if name == "-" else Path(name).name) for name, chart, _ in fans]
    made = [fan(number, title, chart, listing) for number, (title, (_, chart, listing)) in enumerate(zip(titles, fans))]
    return PAGE.format(
        policy=POLICY,
        title=escape(", ".join(titles)),
        style=(HERE / "page.css").read_text(),
        script=(HERE / "page.js").read_text(),
        fans=(row_of_fans(titles, fans) if len(fans) > 1 else "") + "".join(made),
    ).encode(errors="replace")


def row_of_fans(titles, fans):
    """A button with a small picture for each fan."""
    buttons = []
    for number, (title, (_, chart, listing)) in enumerate(zip(titles, fans)):
        chosen = ' aria-selected="true"' if number == 0 else ' aria-selected="false" tabindex="-1"'
        words = f"{small(chart, listing)}<b>{escape(title)}</b><br>{counted(len(listing.meetings), 'meeting')}"
        buttons.append(
            f'<button type="button" role="tab" id="tab-{number}" aria-controls="fan-{number}"{chosen}>{words}</button>\n'
        )
    return f'<div class="fans" role="tablist" aria-label="fans">\n{"".join(buttons)}</div>\n'


def small(chart, listing):
    """The pieces alone, in a picture of the size of a stamp."""
    frame = drawing.frame_of(chart, listing)
    lines = (f"M{px(x1)} {px(y1)}L{px(x2)} {px(y2)}" for x1, y1, x2, y2 in map(frame.line, chart.pieces))
    look = f'class="small" viewBox="{view(frame.box)}" preserveAspectRatio="none" aria-hidden="true"'
    return f'<svg {look}><path d="{"".join(lines)}"/></svg>'


def view(box):
    return f"{px(box.left)} {px(box.top)} {px(box.right - box.left)} {px(box.bottom - box.top)}"


def fan(number, title, chart, listing):
    across, up = meetings.axes_of(chart)
    speeds = [x for piece in chart.pieces for x in (piece.x1, piece.x2)]
    least, most = min(speeds, default=0), max(speeds, default=0)
    incomplete = "" if listing.complete else f'<p class="incomplete">{escape(meetings.NOT_COMPLETE.capitalize())}.</p>\n'
    return FAN.format(
        number=number,
        crowded=" crowded" if len(listing.meetings) >= drawing.CROWD else "",
        count=len(chart.pieces),
        title=escape(title),
        told=f"{counted(len(listing.meetings), 'meeting')} of {counted(len(chart.pieces), 'piece')}",
        incomplete=incomplete,
        across=escape(across),
        up=escape(up),
        unit=escape(unit_of(across)),
        read=escape(unit_of(up)),
        least=least,
        most=most,
        middle=(least + most) // 2,
        span=most - least,
        within=within(most - least),
        picture=picture(title, chart, listing),
        rows=rows(chart, listing),
    )


def unit_of(axis):
    """What stands behind the last comma: of `speed, rpm` rpm."""
    return axis.rpartition(",")[2].strip() if "," in axis else ""


def within(span):
    """How far off a speed a meeting still counts, until someone says otherwise: 1, 2 or 5 and zeros, about half a hundredth
    of all speeds."""
    step = 1
    while 200 * step < span:
        step = step * 5 // 2 if str(step)[0] == "2" else step * 2
    return step


def picture(title, chart, listing):
    """The drawing without its head, which the page has above it."""
    frame, cut = drawing.frame_of(chart, listing), drawing.TOP - 12
    box = frame.box
    size = f'viewBox="0 {cut} {drawing.WIDTH} {drawing.HEIGHT - cut}"'
    look = f'font-family="Helvetica, Arial, sans-serif" font-size="13" fill="{drawing.INK}"'
    scale = f'data-low="{frame.xs[0]}" data-high="{frame.xs[1]}" data-left="{px(box.left)}" data-right="{px(box.right)}"'
    marks = "".join(f"{mark}\n" for mark in [running(box), *drawing.marks_of(chart, listing, frame)])
    return f'<svg class="picture" role="img" aria-label="{escape(title)}, drawn" {size} {look} {scale}>\n{marks}</svg>\n'


def running(box):
    """The line of the running speed and the band around it, which the page moves."""
    top, bottom, tall = px(box.top), px(box.bottom), px(box.bottom - box.top)
    marks = f'<rect y="{top}" width="0" height="{tall}"/><line y1="{top}" y2="{bottom}"/>'
    return f'<g class="running" visibility="hidden">{marks}</g>'


def rows(chart, listing):
    numbers = {place: number for number, place in enumerate(drawing.by_place(listing.meetings))}
    places = {meeting.pair: numbers[meeting.place] for meeting in listing.meetings}
    return "".join(row_of(row, places[row.pieces]) for row in meetings.rows_of(chart, listing))


def row_of(row, place):
    (low, high), (a, b) = row.speed, row.pieces
    along = " along" if row.meets == "along" else ""
    speed = f'<td><button type="button" tabindex="-1">{meetings.from_to(low, high)}</button>{along}</td>'
    tones = "".join(f"<td>{tone(name, number)}</td>" for name, number in zip(row.names, row.pieces))
    marks = f'data-place="{place}" data-low="{low}" data-high="{high}" data-a="{a}" data-b="{b}"'
    return f"<tr {marks}>{speed}<td>{meetings.from_to(*row.frequency)}</td>{tones}</tr>\n"


def tone(name, number):
    return f"{escape(name)} <i>({number})</i>" if name else f"piece {number}"
