"""The folded line of a tone: m times x, folded at 0 and H, from x = 0 to S (docs/CHART.md, folded line)."""
import formats

MOST_ORDER, MOST_FOLDED = formats.size("MOST_ORDER"), formats.size("MOST_FOLDED")


def pieces(m, h, s, name=""):
    """From left to right; a joint belongs to the piece that begins there."""
    for told, value, most in (("m", m, MOST_ORDER), ("H", h, formats.LIMIT), ("S", s, formats.LIMIT)):
        if not 1 <= value <= most:
            raise refused(12, f"{told} is {value}, it must be from 1 to {most}")
    if m * s > h and h % m:
        raise refused(13, f"a joint would lie at {h}/{m}")
    count = -(-m * s // h)
    if count > MOST_FOLDED:
        raise refused(14, f"{m} times {s} folds into {count}")
    joints = [j * h // m for j in range(count)] + [s]
    return [
        formats.Piece(3 if x2 == s else 1, x1, folded(m * x1, h), x2, folded(m * x2, h), name)
        for x1, x2 in zip(joints, joints[1:])
    ]


def folded(v, h):
    """How far v lies from the nearest even multiple of h."""
    return min(v % (2 * h), -v % (2 * h))


def text(m, h, s, name=""):
    """The pieces as lines of a readable chart."""
    words = [m, h, s]
    numbers = [formats.whole(word) for word in words]
    for word, number in zip(words, numbers):
        if number is None:
            raise formats.Wrong(f"{word!r} is not a whole number")
    end = f"   # {name}\n" if name else "\n"
    rows = [" ".join(map(str, piece.numbers())) for piece in pieces(*numbers, name)]
    return "".join(row + end for row in rows).encode()


def refused(number, told):
    return formats.Wrong(f"refused {number}: {formats.REFUSALS[number]}: {told}")
