"""Which pieces of a chart meet, and where: the proved calls of libchart_c.a.

A chart is a list of pieces, each five whole numbers: kind, x1, y1, x2, y2. Kind 0 to 3: add 1 if the first end is included, 2
if the second is. Coordinates run from -LIMIT to LIMIT, and a chart has at most MOST_PIECES pieces.

    >>> from mirtalughe import full_sweep, place
    >>> pieces = [(3, 0, 0, 4, 4), (3, 0, 4, 4, 0)]
    >>> full_sweep(pieces).pairs
    [(0, 1)]
    >>> place(*pieces)
    At(x=2.0, y=2.0)

What is not right is refused: Refused is raised, with the number, the place and the sentence. A number that no list of C's can
hold is an OverflowError, and a piece without five numbers a ValueError."""
from __future__ import annotations

import ctypes
from collections.abc import Iterable, Sequence
from enum import IntEnum
from fractions import Fraction
from typing import Any, NamedTuple, Union

from . import header
from .header import Fault, room
from .library import array, call
from .refusal import Refused

MOST_PIECES: int = header.size("MOST_PIECES")
LIMIT: int = header.size("LIMIT")
PIECE_NUMBERS: int = header.size("PIECE_NUMBERS")
LIST_ROOM: int = header.size("LIST_ROOM")
FOLD_ROOM: int = header.size("FOLD_ROOM")
OPEN_NUMBERS: int = header.size("OPEN_NUMBERS")
RESULT_NUMBERS: int = header.size("RESULT_NUMBERS")
LONGEST_FILE: int = header.size("LONGEST_FILE")
MOST_BUDGET: int = 2**32 - 1


class Piece(NamedTuple):
    kind: int
    x1: int
    y1: int
    x2: int
    y2: int


class Turn(IntEnum):
    """Which way three points turn."""

    CLOCKWISE = -1
    COLINEAR = 0
    COUNTER_CLOCKWISE = 1


class Point(NamedTuple):
    """The point x/d, y/d."""

    x: int
    y: int
    d: int

    def exact(self) -> tuple[Fraction, Fraction]:
        return Fraction(self.x, self.d), Fraction(self.y, self.d)


class End(NamedTuple):
    x: int
    y: int
    included: bool


class Crossing(NamedTuple):
    """The two lines have one common point, and it lies on both pieces."""


class Overlap(NamedTuple):
    """Both pieces lie on one line and share the stretch from min to max, which are equal where it is one point."""

    min: End
    max: End


class At(NamedTuple):
    """The one point that the pieces share, each value the double nearest to the exact one."""

    x: float
    y: float


class Along(NamedTuple):
    """A stretch, from its min to its max."""

    x1: float
    y1: float
    x2: float
    y2: float


class Swept(NamedTuple):
    """The pairs listed, the lesser number first; the steps done; whether no point is left; whether a sweep that has ended has
    listed every pair that meets (of `sweep`: no piece is upright); the last point visited; how many adjacent pairs `sweep`
    examined, skipped ones too."""

    pairs: list[tuple[int, int]]
    steps: int
    ended: bool
    complete: bool
    last: Point | None
    examined: int


class Accepted(NamedTuple):
    """Each pair that meets is named once, and no other."""


class EntryFault(IntEnum):
    """What is wrong with an entry; of several faults it has the first."""

    NO_PIECE = 1
    ITSELF = 2
    APART = 3
    REPEATED = 4


class FaultyEntry(NamedTuple):
    """The first entry at fault, counted from 0, and its first fault."""

    entry: int
    fault: EntryFault


class Missing(NamedTuple):
    """All entries are good; the first pair that meets and is not named, greater number first."""

    pair: tuple[int, int]


class Region(IntEnum):
    """Where a peak lies to a region."""

    ON = 1
    INSIDE = 2
    OUTSIDE = 3


# What is taken: a piece, a chart, a list of pairs, and a point.
PieceLike = Sequence[int]
Pieces = Iterable[PieceLike]
Pairs = Union[bytes, Iterable[tuple[int, int]]]
Whole = tuple[int, int]


def numbers_of(pieces: Iterable[Sequence[int]], each: int = PIECE_NUMBERS) -> Any:
    """The C list of rows of so many numbers."""
    rows = [tuple(row) for row in pieces]
    for at, row in enumerate(rows):
        if len(row) != each:
            raise ValueError(f"number {at} of the list has {len(row)} numbers, {each} are due")
    return array(ctypes.c_int32, [number for row in rows for number in row])


def lent(count: int) -> Any:
    return (ctypes.c_uint8 * count)()


def pairs_in(data: Any, count: int) -> list[tuple[int, int]]:
    return [(data[2 * i], data[2 * i + 1]) for i in range(count)]


def pieces_in(numbers: Any, count: int) -> list[Piece]:
    return [Piece(*numbers[PIECE_NUMBERS * i : PIECE_NUMBERS * (i + 1)]) for i in range(count)]


# ---- the calls, in the header's order


def orient(p: Whole, q: Whole, r: Whole) -> Turn:
    """Which way the three points turn; each coordinate from -32,768 to 32,767."""
    return Turn(call("orient", *p, *q, *r))


def compare_points(p: Point, q: Point) -> int:
    """Which point comes first, by x, then y: -1 the first, 1 the second, 0 neither. It is exact."""
    return int(call("compare_points", *p, *q))


def read(file: bytes) -> list[Piece]:
    """The pieces of a chart file."""
    numbers = (ctypes.c_int32 * LIST_ROOM)()
    return pieces_in(numbers, call("read", array(ctypes.c_uint8, file), numbers).count)


def write(pieces: Pieces) -> bytes:
    """The chart's file; reading it gives the pieces again."""
    data = lent(LONGEST_FILE)
    return bytes(data[: call("write", numbers_of(pieces), data).count])


def meeting(first: PieceLike, second: PieceLike) -> Crossing | Overlap | None:
    """How two pieces meet, the first one asking; None where no point lies on both."""
    met, due = call("meeting", numbers_of((first, second))), header.numbers("meets")
    ends = (End(end.x, end.y, end.included) for end in (met.min, met.max))
    return {due["NOTHING"]: None, due["CROSSING"]: Crossing(), due["OVERLAP"]: Overlap(*ends)}[met.meets]


def place(first: PieceLike, second: PieceLike) -> At | Along | None:
    """Where two pieces meet; None where no point lies on both."""
    placed, due = call("place", numbers_of((first, second))), header.numbers("meets")
    along = Along(placed.x1, placed.y1, placed.x2, placed.y2)
    return {due["NOTHING"]: None, due["AT"]: At(placed.x1, placed.y1), due["ALONG"]: along}[placed.meets]


def all_pairs(pieces: Pieces) -> list[tuple[int, int]]:
    """Every pair of pieces that meet, the greater number first: for a from 0, for b below a."""
    numbers = numbers_of(pieces)
    data = lent(room("PAIRS_ROOM", len(numbers) // PIECE_NUMBERS))
    return pairs_in(data, call("all_pairs", numbers, data).count)


def swept(name: str, pieces: Pieces, budget: int) -> Swept:
    """What the sweep of that name says."""
    numbers = numbers_of(pieces)
    data = lent(room("PAIRS_ROOM", len(numbers) // PIECE_NUMBERS))
    said = call(name, numbers, budget, data)
    last = Point(said.x, said.y, said.d) if said.visited else None
    return Swept(pairs_in(data, said.pairs), said.steps, said.ended, said.complete, last, said.examined)


def sweep(pieces: Pieces, budget: int = MOST_BUDGET) -> Swept:
    """Sweeps the pieces from left to right for at most so many steps, a visited point each, and lists pairs that meet, as the
    Rust does. It may miss pairs of upright pieces."""
    return swept("sweep", pieces, budget)


def full_sweep(pieces: Pieces, budget: int = MOST_BUDGET) -> Swept:
    """Sweeps the pieces likewise, and misses none, upright or not."""
    return swept("full_sweep", pieces, budget)


def sweep_batch(charts: Iterable[Pieces]) -> list[Swept | Refused]:
    """Sweeps several charts in one call, each as `full_sweep` would alone; a refused chart disturbs no other."""
    lists = [numbers_of(pieces) for pieces in charts]
    parts = [room("PAIRS_ROOM", len(numbers) // PIECE_NUMBERS) for numbers in lists]
    parts = [part if len(numbers) <= LIST_ROOM else 0 for part, numbers in zip(parts, lists)]
    data, results = lent(sum(parts)), (ctypes.c_uint64 * (RESULT_NUMBERS * len(lists)))()
    whole = array(ctypes.c_int32, [number for numbers in lists for number in numbers])
    call("sweep_batch", whole, array(ctypes.c_size_t, map(len, lists)), data, results)
    said, at = [], 0
    for i, part in enumerate(parts):
        number, place, pairs, steps, ended, complete, visited, x, y, d = results[RESULT_NUMBERS * i : RESULT_NUMBERS * (i + 1)]
        last = Point(ctypes.c_int64(x).value, ctypes.c_int64(y).value, d) if visited else None
        listed = pairs_in(data[at : at + part], pairs)
        said.append(Refused(number, place, "list") if number else Swept(listed, steps, bool(ended), bool(complete), last, 0))
        at += part
    return said


def plain_order(pieces: Pieces) -> list[tuple[int, int]]:
    """Every pair of pieces that meet, of a chart with no upright piece, the lesser number first: by first common point, then
    the lesser number, then the greater."""
    numbers = numbers_of(pieces)
    data = lent(room("PAIRS_ROOM", len(numbers) // PIECE_NUMBERS))
    return pairs_in(data, call("plain_order", numbers, data).count)


def check(pieces: Pieces, pairs: Pairs) -> Accepted | FaultyEntry | Missing:
    """Whether a list of pairs, in any order, names each pair that meets once, and if not, where it is wrong. Bytes are two a
    pair."""
    data = pairs if isinstance(pairs, bytes) else [number for a, b in pairs for number in (a, b)]
    said, due = call("check", numbers_of(pieces), array(ctypes.c_uint8, data)), header.numbers("says")
    if said.says == due["FAULT"]:
        return FaultyEntry(said.first, EntryFault(said.second))
    return Missing((said.first, said.second)) if said.says == due["MISSING"] else Accepted()


def fold(order: int, half_rate: int, top_speed: int) -> list[Piece]:
    """The pieces of order times x, folded at 0 and at half the sampling rate, from x = 0 to the top speed, all in one unit."""
    numbers = (ctypes.c_int32 * FOLD_ROOM)()
    return pieces_in(numbers, call("fold", order, half_rate, top_speed, numbers).count)


def region(outline: Iterable[Whole], peak: Whole) -> Region:
    """Where a peak lies to the region of a closed outline of 3 to 64 corners: on a side, or inside by the even-odd rule."""
    return Region(call("region", numbers_of(outline, 2), *peak).region)


def half_line(piece: PieceLike, start: Whole, through: Whole) -> Turn | None:
    """How the half-line from one point through another meets a piece: None, or with the turn that the Rust's `Crossing`
    carries."""
    met = call("half_line", *numbers_of([piece]), *start, *through)
    return Turn(met.turn) if met.meets else None


# An open chart is the memory that these calls change: five numbers a place.
OpenChart = Any


def open_empty() -> OpenChart:
    """An open chart without pieces."""
    chart = (ctypes.c_int32 * OPEN_NUMBERS)()
    call("open_empty", chart)
    return chart


def open_add(chart: OpenChart, piece: PieceLike) -> int:
    """Adds a piece at the lowest free place; its number from then on."""
    return int(call("open_add", chart, *numbers_of([piece])).piece)


def open_drop(chart: OpenChart, number: int) -> int:
    """Drops the piece of a number, which is then free."""
    return int(call("open_drop", chart, number).piece)


def open_used(chart: OpenChart) -> int:
    """How many pieces stand on an open chart."""
    return int(call("open_used", chart).count)


def open_pairs(chart: OpenChart) -> list[tuple[int, int]]:
    """Every pair of an open chart's pieces that meet, by their own numbers, the greater first."""
    data = lent(room("PAIRS_ROOM", open_used(chart)))
    return pairs_in(data, call("open_pairs", chart, data).count)
