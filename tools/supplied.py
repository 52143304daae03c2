"""A supplier's list of pairs: text into bytes, and what the library says of it in a sentence."""
import formats

FAULTS = {
    1: "one of its numbers is not a piece's",
    2: "both numbers are equal",
    3: "the two do not meet",
    4: "it repeats the pair of an earlier entry",
}


def bytes_of_text(data):
    """Two bytes for each line of two numbers; what follows # is a comment."""
    found = bytearray()
    for at, line in enumerate(formats.lines_of(data), 1):
        words = line.split("#")[0].split()
        if not words:
            continue
        numbers = [formats.whole(word) for word in words]
        if len(numbers) != 2 or not all(number in range(256) for number in numbers):
            raise formats.Wrong(f"line {at}: two numbers from 0 to 255 are due, not {formats.shortly(words)}")
        found += bytes(numbers)
    return bytes(found)


def bytes_of_pairs(data):
    """A list of bytes as it is. Whoever has a longer one has told the same pair many times."""
    if len(data) > formats.MOST_TEXT:
        raise formats.Wrong(f"byte {formats.MOST_TEXT}: a list has at most so many here")
    return data


def sentence(chart, pairs, answer):
    """What an answer of examples/check.c says of the list, with the names of the pieces."""
    word, *rest = formats.lines_of(answer)[0].split() or [""]
    due = {"accepted": 0, "fault": 2, "missing": 2, "refused": 2}.get(word)
    numbers = [formats.whole(number) for number in rest]
    if due != len(numbers) or None in numbers:
        raise formats.Wrong("line 1: `accepted`, `fault`, `missing` or `refused` and two numbers are due")
    if word == "accepted":
        return "The list names each pair that meets once, and no other."
    first, second = numbers
    if word == "refused":
        meaning = formats.REFUSALS.get(first)
        if meaning is None:
            raise formats.Wrong(f"line 1: {first} is the number of no refusal")
        return f"The call is refused with {first}: {meaning}, place {second}."
    if word == "missing":
        return f"Every entry is good, but {piece(chart, first)} and {piece(chart, second)} meet, and no entry names them."
    if second not in FAULTS or 2 * first + 1 >= len(pairs):
        raise formats.Wrong(f"line 1: no entry {first} of the list has a fault {second}")
    a, b = pairs[2 * first : 2 * first + 2]
    return f"Entry {first} is at fault, {piece(chart, a)} and {piece(chart, b)}: {FAULTS[second]}{earlier(pairs, first, second)}."


def earlier(pairs, entry, fault):
    """Which entry is repeated."""
    if fault != 4:
        return ""
    wanted = sorted(pairs[2 * entry : 2 * entry + 2])
    return f", entry {next(j for j in range(entry) if sorted(pairs[2 * j : 2 * j + 2]) == wanted)}"


def piece(chart, number):
    if number >= len(chart.pieces):
        return f"{number} (of {len(chart.pieces)} pieces)"
    name = chart.pieces[number].name
    return f"piece {number} ({name})" if name else f"piece {number}"
