"""A call that is refused."""
from .header import SENTENCES, Fault

# What the place counts, by what the call was given to look at.
PLACES = {"file": "at byte", "list": "in piece", "outline": "at corner"}
OF_A_PIECE = ("KIND", "COORDINATE", "NO_LENGTH")


class Refused(Exception):
    """Why, by its number in docs/CHART.md's table and as a sentence, and where: in a file the place is the byte at which the
    number starts, in a list the piece's number, in an outline the corner's, zero for the peak; else it is zero."""

    number: int
    place: int
    fault: Fault
    sentence: str

    def __init__(self, number: int, place: int, given: str) -> None:
        self.number, self.place, self.fault, self.sentence = number, place, Fault(number), SENTENCES[number]
        super().__init__(f"refused {number}: {self.sentence}{where(self.fault, place, given)}")


def where(fault: Fault, place: int, given: str) -> str:
    if given not in PLACES or fault.name == "ROOM" or given != "file" and fault.name not in OF_A_PIECE:
        return ""
    peak = " or the peak" if given == "outline" and fault.name == "COORDINATE" and place == 0 else ""
    return f", {PLACES[given]} {place}{peak}"
