#!/usr/bin/env python3
"""batch.py: tries what is said of a batch on random requests, before and beside the proofs.

The definitions of crates/batch/specs are written out as they stand, over lists taken and dropped; against them stands a plain
model with places counted from the front and one buffer that is written in place. What a single sweep finds does not matter
here: any call will do that refuses some lists and writes over a beginning of its bytes. Usage: batch.py [requests] [seed]."""
import random
import struct
import sys

MOST, CHARTS, NUMBERS, WORD = 200, 16, 10, 2**64


def need(k):
    return (k // 5) * (k // 5 - 1) if k % 5 == 0 and 0 < k // 5 <= MOST else 0


def alone(numbers, lent):
    """A call on one chart: refused by its length or a first number above 3, else it writes some pairs."""
    if len(numbers) % 5 or len(numbers) // 5 > MOST or len(lent) < need(len(numbers)):
        return (9, 0, 0, 0, 0, 0, None), lent
    if any(k > 3 for k in numbers[::5]):
        return (4, [k > 3 for k in numbers[::5]].index(True), 0, 0, 0, 0, None), lent
    pairs = sum(numbers) % (len(lent) // 2 + 1)
    last = (sum(numbers), -sum(numbers), len(numbers)) if numbers else None
    return (0, 0, pairs, len(numbers), 1, len(numbers) % 2, last), [(7 * i + 1) % 256 for i in range(2 * pairs)] + lent[2 * pairs :]


# ---- the definitions
def word(z):
    return z if z >= 0 else 18446744073709551615 - (-z - 1)


def numbers_of(s):
    return list(s[:6]) + ([0, 0, 0, 0] if s[6] is None else [1, word(s[6][0]), word(s[6][1]), s[6][2]])


def each(lengths, numbers, lent):
    if not lengths:
        return []
    k, n = lengths[0], need(lengths[0])
    return [alone(numbers[:k], lent[:n])] + each(lengths[1:], numbers[k:], lent[n:])


def over(new, old):
    return new + old[len(new) :]


def refusal(numbers, lengths, lent, room):
    if len(lengths) > CHARTS:
        return 10
    if sum(lengths) != len(numbers) or len(lent) < sum(map(need, lengths)):
        return 11
    return 8 if len(room) < NUMBERS * len(lengths) else 0


def batch(numbers, lengths, lent, room):
    number = refusal(numbers, lengths, lent, room)
    if number:
        return (number, 0, 0), lent, room
    all_of = each(lengths, numbers, lent)
    return (0, 0, len(lengths)), over(sum((a[1] for a in all_of), []), lent), over(sum((numbers_of(a[0]) for a in all_of), []), room)


# ---- the plain model
def model(numbers, lengths, lent, room):
    if len(lengths) > 16:
        return (10, 0, 0), lent, room
    left, free = len(numbers), len(lent)
    for k in lengths:
        pieces, rest = divmod(k, 5)
        left, free = left - k, free - (pieces * (pieces - 1) if rest == 0 and pieces <= 200 else 0)
    if left != 0 or free < 0:
        return (11, 0, 0), lent, room
    if len(room) // 10 < len(lengths):
        return (8, 0, 0), lent, room
    lent, told, start, at = list(lent), struct.pack(f"<{len(room)}Q", *room), 0, 0
    for i, k in enumerate(lengths):
        pieces, rest = divmod(k, 5)
        end = at + (pieces * (pieces - 1) if rest == 0 and pieces <= 200 else 0)
        result, lent[at:end] = alone(numbers[start : start + k], lent[at:end])
        x, y, d = result[6] or (0, 0, 0)
        fields = struct.pack("<7Q2qQ", *result[:6], result[6] is not None, x, y, d)
        told = told[: 80 * i] + fields + told[80 * (i + 1) :]
        start, at = start + k, end
    return (0, 0, len(lengths)), lent, list(struct.unpack(f"<{len(room)}Q", told))


def request(rnd):
    charts = rnd.choice((0, 1, 2, 3, 5, 15, 16, 17, 18))
    lengths = [rnd.choice((0, 5, 10, 15, 20, 7, 1005, 1010)) if rnd.random() < 0.9 else rnd.choice((*range(60), 1000)) for _ in range(charts)]
    numbers = [rnd.choice((0, 1, 2, 3)) if rnd.random() < 0.99 else 4 for _ in range(sum(lengths))]
    if lengths and rnd.random() < 0.2:
        lengths[rnd.randrange(charts)] += rnd.choice((1, 5, WORD, WORD - 1, WORD - 5))
    elif rnd.random() < 0.1:
        numbers.append(3)
    short = max(0, sum(map(need, lengths)) + rnd.choice((0, 0, 0, 1, 9, -1)))
    room = max(0, NUMBERS * charts + rnd.choice((0, 0, 0, 1, 9, 10, -1)))
    return numbers, lengths, [rnd.randrange(256) for _ in range(short)], [rnd.randrange(WORD) for _ in range(room)]


def main(count=4000, seed=1):
    rnd, seen = random.Random(seed), {}
    for _ in range(count):
        numbers, lengths, lent, room = given = request(rnd)
        answer, after, told = batch(*given)
        assert (answer, after, told) == model(*given), given
        seen[answer[0]] = seen.get(answer[0], 0) + 1
        if answer[0]:
            continue
        for i, k in enumerate(lengths):  # EachAlone
            start, at = sum(lengths[:i]), sum(map(need, lengths[:i]))
            result, left = alone(numbers[start : start + k], lent[at : at + need(k)])
            assert told[10 * i : 10 * i + 10] == numbers_of(result) and after[at : at + need(k)] == left, given
        assert after[sum(map(need, lengths)) :] == lent[sum(map(need, lengths)) :] and told[10 * len(lengths) :] == room[10 * len(lengths) :]
    assert {0, 8, 10, 11} == set(seen), seen
    print(f"{count} requests, by number {dict(sorted(seen.items()))}: the definitions are the model's, and each chart is as if alone")


main(*map(int, sys.argv[1:]))
