"""The three forms of a chart that people and programs exchange: readable text, the chart file, and the listing that the
program `chart` prints. Whatever is wrong is told with the line or byte at which it stands, and which number it is."""
import re
from dataclasses import dataclass, field
from pathlib import Path

HEADER = Path(__file__).resolve().parents[1] / "crates/chart_c/include/mirtalughe.h"


def size(name):
    """A size of the library's header, worked out."""
    told = re.search(rf"^#define MIRTALUGHE_{name} ([\w+* ()]+)", HEADER.read_text(), re.M)[1]
    return eval(re.sub(r"MIRTALUGHE_(\w+)", lambda other: str(size(other[1])), told))


MOST_PIECES = size("MOST_PIECES")
LIMIT = size("LIMIT")
MOST_GROUPS = 3
# Bytes of the longest chart file; one more of a longer one decides what is made of all of it.
LONGEST_FILE = size("LONGEST_FILE")
# Bytes of the longest text that is read. The longest listing of 200 pieces has fewer.
MOST_TEXT = 1 << 20
NUMBERS = ("kind", "x1", "y1", "x2", "y2")

# The sentences of docs/CHART.md.
REFUSALS = {
    1: "the file ends inside a number or before one that is due",
    2: "the third group has its high bit set, or the last of several groups is zero",
    3: f"count above {MOST_PIECES}",
    4: "kind outside 0 to 3",
    5: "coordinate out of range",
    6: "both ends of a piece equal",
    7: "bytes after the last piece",
    8: "lent room too small",
    9: "a list's length is no multiple of five or, in a pair call, is not ten",
    12: "an argument out of range",
    13: "mS is above H and m doesn't divide H",
    14: "more than 200 pieces",
    10: "more than 16 charts in one request",
    11: "the lengths don't add up to the list, or fewer bytes are lent than the charts need",
    15: "an odd count of numbers or a corner count outside 3 to 64",
    16: "an odd number of bytes, two a pair",
    17: "all 200 places of an open chart are used",
    18: "the number to drop from an open chart is free or unknown",
    19: "an upright piece, where none may be",
}


class Wrong(Exception):
    """Something in what was given is wrong; the text says what and where."""


class Refused(Wrong):
    """A chart file that has a fault: the refusal's number, and the byte that is its place."""

    def __init__(self, number, place, told):
        super().__init__(f"byte {place}: {told} (refused {number}: {REFUSALS[number]})")
        self.number, self.place = number, place


@dataclass(frozen=True)
class Piece:
    kind: int
    x1: int
    y1: int
    x2: int
    y2: int
    name: str = ""

    def numbers(self):
        return self.kind, self.x1, self.y1, self.x2, self.y2

    def ends(self):
        """x, y and whether the end is included, of the first and of the second."""
        return (self.x1, self.y1, self.kind & 1 != 0), (self.x2, self.y2, self.kind & 2 != 0)


@dataclass(frozen=True)
class Chart:
    """The pieces, and what the text says for a picture: its title and what its two axes are."""

    pieces: list
    headings: dict = field(default_factory=dict)


@dataclass(frozen=True)
class At:
    """A point, by the whole units on both sides of its speed and of its frequency: the cell in which it lies."""

    x_low: int
    x_high: int
    y_low: int
    y_high: int

    def corners(self):
        return (self.x_low, self.y_low), (self.x_high, self.y_high)

    def middle(self):
        return (self.x_low + self.x_high) / 2, (self.y_low + self.y_high) / 2

    def fault(self):
        if not (0 <= self.x_high - self.x_low <= 1 and 0 <= self.y_high - self.y_low <= 1):
            return "a low unit and a high one are equal or next to each other"
        return None

    def __str__(self):
        return f"at {self.x_low} {self.x_high} {self.y_low} {self.y_high}"


@dataclass(frozen=True)
class Along:
    """A stretch, by its two ends."""

    x1: int
    y1: int
    x2: int
    y2: int

    def corners(self):
        return (self.x1, self.y1), (self.x2, self.y2)

    def fault(self):
        start, end = self.corners()
        return "one shared point reads `at`, and `along` has two: an older program wrote it" if start == end else None

    def __str__(self):
        return f"along {self.x1} {self.y1} {self.x2} {self.y2}"


@dataclass(frozen=True)
class Meeting:
    """A pair, and where it meets: an At or an Along."""

    pair: tuple
    place: object


@dataclass(frozen=True)
class Listing:
    count: int
    complete: bool
    meetings: list
    steps: int


def whole(word):
    """The whole number that a word stands for, or none. Nine digits are more than any number here has."""
    return int(word) if re.fullmatch("-?[0-9]{1,9}", word) else None


def shortly(words):
    """What a fault shows of a line: its beginning, in quotation marks."""
    told = " ".join(words)
    return repr(told if len(told) <= 40 else f"{told[:40]}..")


def lines_of(data):
    """The lines of a text, which must be UTF-8 without control characters, so that a picture can show what it says."""
    if len(data) > MOST_TEXT:
        raise Wrong(f"byte {MOST_TEXT}: a text has at most so many")
    try:
        lines = data.decode("utf-8").removeprefix("\ufeff").removesuffix("\n").split("\n")
    except UnicodeDecodeError as e:
        line = data[: e.start].count(b"\n") + 1
        raise Wrong(f"line {line}: byte {e.start} of the text is not UTF-8") from None
    for at, line in enumerate(lines, 1):
        if odd := re.search("[^\t\r\x20-\ufffd\U00010000-\U0010ffff]", line):
            raise Wrong(f"line {at}: the character U+{ord(odd[0]):04X} cannot stand in a text")
    return lines


# Readable text: a line for each piece, `kind x1 y1 x2 y2`, and comments from `#` on.


def chart_of_text(data):
    pieces, headings = [], {}
    for at, line in enumerate(lines_of(data), 1):
        numbers, _, comment = (part.strip() for part in line.partition("#"))
        if numbers:
            if len(pieces) == MOST_PIECES:
                raise Wrong(f"line {at}: piece {MOST_PIECES} is one too many, a chart has at most {MOST_PIECES}")
            pieces.append(piece_of_words(numbers.split(), comment, f"line {at}"))
        elif heading := re.match("(title|across|up): *(.+)", comment):
            headings[heading[1]] = heading[2]
    return Chart(pieces, headings)


def piece_of_words(words, name, where):
    if len(words) != len(NUMBERS):
        raise Wrong(f"{where}: {len(words)} words where a piece has five numbers: {' '.join(NUMBERS)}")
    numbers = []
    for at, (word, meaning) in enumerate(zip(words, NUMBERS), 1):
        number, least, most = whole(word), *((0, 3) if meaning == "kind" else (-LIMIT, LIMIT))
        if number is None:
            raise Wrong(f"{where}: number {at} ({meaning}) is {word[:20]!r}, which is not a whole number")
        if not least <= number <= most:
            raise Wrong(f"{where}: number {at} ({meaning}) is {number}, it must be from {least} to {most}")
        numbers.append(number)
    if numbers[1:3] == numbers[3:5]:
        raise Wrong(f"{where}: both ends are {numbers[1]} {numbers[2]}, a piece has some length")
    return Piece(*numbers, name)


def text_of_chart(chart):
    rows = [" ".join(map(str, piece.numbers())) for piece in chart.pieces]
    return "".join(row + "\n" for row in [f"# {' '.join(NUMBERS)}"] + rows).encode()


# The chart file: the count, then the five numbers of each piece; all but the kinds in groups of seven bits.


def file_of_chart(chart):
    data = bytearray(groups_of(len(chart.pieces)))
    for piece in chart.pieces:
        data.append(piece.kind)
        for v in piece.numbers()[1:]:
            data += groups_of(2 * v if v >= 0 else -2 * v - 1)
    return bytes(data)


def groups_of(number):
    """The fewest groups, the low one first, each but the last with its high bit set."""
    groups = []
    while number >= 0x80:
        groups.append(number & 0x7F | 0x80)
        number >>= 7
    return bytes([*groups, number])


def chart_of_file(data):
    count, at = groups_at(data, 0, "the count")
    if count > MOST_PIECES:
        raise Refused(3, 0, f"the count is {count}")
    pieces = []
    while len(pieces) < count:
        piece, at = piece_at(data, at, len(pieces))
        pieces.append(piece)
    if at < len(data):
        raise Refused(7, at, f"piece {len(pieces) - 1} was the last" if pieces else "there are no pieces")
    return Chart(pieces)


def piece_at(data, start, piece):
    if start == len(data):
        raise Refused(1, start, f"the kind of piece {piece} is due")
    if data[start] > 3:
        raise Refused(4, start, f"the kind of piece {piece} is {data[start]}")
    numbers, at = [data[start]], start + 1
    for meaning in NUMBERS[1:]:
        number, at = coordinate_at(data, at, f"{meaning} of piece {piece}")
        numbers.append(number)
    if numbers[1:3] == numbers[3:5]:
        raise Refused(6, start, f"both ends of piece {piece} are {numbers[1]} {numbers[2]}")
    return Piece(*numbers), at


def coordinate_at(data, start, meaning):
    stored, end = groups_at(data, start, meaning)
    number = -(stored + 1 >> 1) if stored & 1 else stored >> 1
    if abs(number) > LIMIT:
        raise Refused(5, start, f"{meaning} is {number}")
    return number, end


def groups_at(data, start, meaning):
    """The number that stands in groups at a byte, and the byte after it."""
    groups = 0
    while groups < MOST_GROUPS and start + groups < len(data) and data[start + groups] & 0x80:
        groups += 1
    if groups == MOST_GROUPS:
        raise Refused(2, start, f"{meaning} does not end")
    if start + groups == len(data):
        raise Refused(1, start, f"{meaning} is {'cut' if groups else 'due'}")
    if groups and data[start + groups] == 0:
        raise Refused(2, start, f"{meaning} has a group too many")
    end = start + groups + 1
    return sum((byte & 0x7F) << 7 * i for i, byte in enumerate(data[start:end])), end


# The listing: `chart N`, `complete yes`, a line for each pair, `steps S`; or `refused K`.


def listing_of_text(data):
    lines = [line.split() for line in lines_of(data)]
    if lines and lines[0][:1] == ["refused"]:
        refused = number_after("refused", lines, 0)
        raise Wrong(f"line 1: the chart was refused with {refused}: {REFUSALS.get(refused, 'no refusal of a chart')}")
    count = number_after("chart", lines, 0)
    if lines[1:2] not in ([["complete", "yes"]], [["complete", "no"]]):
        raise Wrong("line 2: `complete yes` or `complete no` is due")
    last = max(2, len(lines) - 1)
    meetings = [meeting_at(lines, at, count) for at in range(2, last)]
    return Listing(count, lines[1][1] == "yes", meetings, number_after("steps", lines, last))


def number_after(word, lines, at):
    """The number of a line that is a word and a number."""
    line = lines[at] if at < len(lines) else []
    if len(line) != 2 or line[0] != word:
        raise Wrong(f"line {at + 1}: `{word}` and a number are due, not {shortly(line)}")
    return number_of(line, 1, f"line {at + 1}")


def number_of(line, i, where):
    number = whole(line[i])
    if number is None:
        raise Wrong(f"{where}: word {i + 1} is {line[i][:20]!r}, which is not a whole number")
    return number


def meeting_at(lines, at, count):
    line, where = lines[at], f"line {at + 1}"
    form = {"at": At, "along": Along}.get(line[3] if len(line) > 3 else "")
    if form is At and len(line) == 6:
        older = "an older program, which told the nearest of each alone, wrote it"
        raise Wrong(f"{where}: two units of the speed and two of the frequency are due after `at`: {older}")
    if form is None or len(line) != 8 or line[0] != "pair":
        due = "`pair a b at xlow xhigh ylow yhigh` or `pair a b along x1 y1 x2 y2`"
        raise Wrong(f"{where}: {due} is due, not {shortly(line)}")
    pair = number_of(line, 1, where), number_of(line, 2, where)
    if not 0 <= pair[0] < pair[1] < count:
        raise Wrong(f"{where}: {pair[0]} {pair[1]} is no pair of pieces below {count}, lesser first")
    place = form(*(number_of(line, i, where) for i in range(4, 8)))
    if place.fault():
        raise Wrong(f"{where}: {place.fault()}")
    return Meeting(pair, place)
