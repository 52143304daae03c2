"""The meetings of a chart with the pieces' names, by speed: as a table, as JSON and as CSV.

A meeting at a point counts at both whole speeds of its cell, one along a stretch from one end to the other."""
import csv
import io
import json
from dataclasses import dataclass

from formats import Along

NOT_COMPLETE = "not complete: a piece is upright, and some meetings of upright pieces may be missing"
FIELDS = ("meets", "speed_from", "speed_to", "frequency_from", "frequency_to", "name_a", "name_b", "piece_a", "piece_b")


@dataclass(frozen=True)
class Row:
    """A pair that meets. At a point, from the greatest whole unit not above the value to the least not below it; along a
    stretch, from its end at the lesser speed to the other."""

    meets: str
    speed: tuple
    frequency: tuple
    names: tuple
    pieces: tuple

    def within(self, low, high):
        return self.speed[0] <= high and low <= self.speed[1]


def rows_of(chart, listing, between=None):
    """By speed; of one speed, or of one cell, in the listing's order."""
    rows = [row_of(chart, meeting) for meeting in listing.meetings]
    rows.sort(key=lambda row: (row.speed[0], row.speed[0] if row.meets == "along" else row.speed[1]))
    return [row for row in rows if between is None or row.within(*between)]


def row_of(chart, meeting):
    names = tuple(" ".join(chart.pieces[number].name.split()) for number in meeting.pair)
    (x1, y1), (x2, y2) = meeting.place.corners()
    return Row("along" if isinstance(meeting.place, Along) else "at", (x1, x2), (y1, y2), names, meeting.pair)


def called(row):
    """What the two pieces are called: by name, or by number where they have none."""
    return tuple(name or f"piece {number}" for name, number in zip(row.names, row.pieces))


def from_to(low, high):
    return str(low) if low == high else f"{low} to {high}"


def axes_of(chart):
    return chart.headings.get("across", "speed"), chart.headings.get("up", "frequency")


def table(chart, listing, between=None):
    rows = rows_of(chart, listing, between)
    if not rows:
        told = f" between {between[0]} and {between[1]}" if between else ""
        return f"no two pieces meet{told}\n".encode()
    cells = [(*axes_of(chart), "tone", "or tone", "pieces")]
    for row in rows:
        a, b = called(row)
        cells.append((from_to(*row.speed), from_to(*row.frequency), a, b, "{} {}".format(*row.pieces)))
    wide = [max(map(len, column)) for column in zip(*cells)]
    lines = ("  ".join(cell.ljust(w) for cell, w in zip(line, wide)).rstrip() for line in cells)
    return "".join(f"{line}\n" for line in lines).encode()


def as_json(chart, listing, between=None):
    across, up = axes_of(chart)
    head = {"title": chart.headings.get("title", ""), "across": across, "up": up}
    head |= {"pieces": listing.count, "complete": listing.complete, "steps": listing.steps}
    rows = ",".join("\n  " + json.dumps(vars(row), ensure_ascii=False) for row in rows_of(chart, listing, between))
    return f'{json.dumps(head, ensure_ascii=False)[:-1]}, "meetings": [{rows}\n]}}\n'.encode()


def as_csv(chart, listing, between=None):
    made = io.StringIO()
    lines = csv.writer(made, lineterminator="\n")
    lines.writerow(FIELDS)
    for row in rows_of(chart, listing, between):
        lines.writerow((row.meets, *row.speed, *row.frequency, *row.names, *row.pieces))
    return made.getvalue().encode()


FORMS = {"--json": as_json, "--csv": as_csv}
