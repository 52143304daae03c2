"""Every number of the table: its place, its sentence, and lent memory left as it was; and what never reaches the library."""
import ctypes
import unittest

import mirtalughe
from mirtalughe import LIMIT, LIST_ROOM, LONGEST_FILE, MOST_PIECES, Fault, Refused, header
from mirtalughe.library import array, call

SOUND = (3, 0, 0, 4, 4)
MANY = f"count above {MOST_PIECES}"
CUT = "the file ends inside a number or before one that is due"
GROUPS = "the third group has its high bit set, or the last of several groups is zero"
LENGTH = "a list's length is no multiple of five or, in a pair call, is not ten"


class Refusals(unittest.TestCase):
    def refused(self, number, place, told, ask, *given):
        with self.assertRaises(Refused) as caught:
            ask(*given)
        refusal = caught.exception
        self.assertEqual(
            (refusal.number, refusal.fault, refusal.place, str(refusal)),
            (number, Fault(number), place, f"refused {number}: {told}"),
        )
        self.assertTrue(told.startswith(refusal.sentence))

    def test_files(self):
        for data, number, place, told in (
            (b"", 1, 0, f"{CUT}, at byte 0"),
            (b"\1\3\0\x80", 1, 3, f"{CUT}, at byte 3"),
            (b"\1\3\x80\0", 2, 2, f"{GROUPS}, at byte 2"),
            (bytes([0xC9]), 1, 0, f"{CUT}, at byte 0"),
            (bytes([0x81, 0]), 2, 0, f"{GROUPS}, at byte 0"),
            (bytes([0xC9, 1]), 3, 0, f"{MANY}, at byte 0"),
            (bytes([0x81, 0x80, 1]), 3, 0, f"{MANY}, at byte 0"),
            (b"\1\4", 4, 1, "kind outside 0 to 3, at byte 1"),
            (b"\1\3\xff\xff\3", 5, 2, "coordinate out of range, at byte 2"),
            (b"\1\3\2\4\2\4", 6, 1, "both ends of a piece equal, at byte 1"),
            (b"\1\3\0\0\2\2\x09\x09", 7, 6, "bytes after the last piece, at byte 6"),
        ):
            self.refused(number, place, told, mirtalughe.read, data)

    def test_lists(self):
        for piece, number, told in (
            ((4, 0, 0, 1, 1), 4, "kind outside 0 to 3, in piece 1"),
            ((3, LIMIT + 1, 0, 1, 1), 5, "coordinate out of range, in piece 1"),
            ((3, 0, 0, 1, -LIMIT - 1), 5, "coordinate out of range, in piece 1"),
            ((3, 5, 6, 5, 6), 6, "both ends of a piece equal, in piece 1"),
        ):
            for ask in (mirtalughe.sweep, mirtalughe.full_sweep, mirtalughe.all_pairs, mirtalughe.write, lambda list: mirtalughe.check(list, [])):
                self.refused(number, 1, told, ask, [SOUND, piece])
            for ask in (mirtalughe.meeting, mirtalughe.place):
                self.refused(number, 1, told, ask, SOUND, piece)
        for ask in (mirtalughe.sweep, mirtalughe.full_sweep, mirtalughe.all_pairs, mirtalughe.write):
            self.refused(3, 0, MANY, ask, [SOUND] * (MOST_PIECES + 1))
        self.refused(16, 0, "an odd number of bytes, two a pair", mirtalughe.check, [SOUND], b"\0")

    def test_folded_lines(self):
        self.refused(12, 0, "an argument out of range", mirtalughe.fold, 61, 1, 1)
        self.refused(13, 0, "mS is above H and m doesn't divide H", mirtalughe.fold, 2, 3, 2)
        self.refused(14, 0, "more than 200 pieces", mirtalughe.fold, 1, 1, 201)

    def test_plain_order(self):
        self.refused(19, 0, "an upright piece, where none may be", mirtalughe.plain_order, [SOUND, (3, 0, 0, 0, 1)])

    def test_batch(self):
        self.refused(10, 0, "more than 16 charts in one request", mirtalughe.sweep_batch, [[SOUND]] * 17)

    def test_open_charts(self):
        chart = mirtalughe.open_empty()
        self.refused(18, 0, "the number to drop from an open chart is free or unknown", mirtalughe.open_drop, chart, 0)
        self.refused(4, 0, "kind outside 0 to 3", mirtalughe.open_add, chart, (4, 0, 0, 1, 1))

    def test_regions_and_half_lines(self):
        corners = [(0, 0), (9, 0), (9, 9)]
        told = "an odd count of numbers or a corner count outside 3 to 64"
        self.refused(15, 0, told, mirtalughe.region, corners[:2], (1, 1))
        self.refused(5, 1, "coordinate out of range, at corner 1", mirtalughe.region, [(0, 0), (40000, 0), (9, 9)], (1, 1))
        self.refused(6, 2, "both ends of a piece equal, at corner 2", mirtalughe.region, [*corners, (9, 9)], (1, 1))
        self.refused(5, 0, "coordinate out of range, at corner 0 or the peak", mirtalughe.region, corners, (32767, 1))
        self.refused(6, 0, "both ends of a piece equal", mirtalughe.half_line, SOUND, (1, 1), (1, 1))

    def test_room_and_length(self):
        """What the faces never give: too little room, and a list that is not of pieces. Lent memory stays as it was."""
        numbers = array(ctypes.c_int32, SOUND * 2)
        for name, given, kind, short in (
            ("read", (array(ctypes.c_uint8, b"\0"),), ctypes.c_int32, LIST_ROOM - 1),
            ("write", (numbers,), ctypes.c_uint8, LONGEST_FILE - 1),
            ("all_pairs", (numbers,), ctypes.c_uint8, 1),
            ("sweep", (numbers, 9), ctypes.c_uint8, 1),
        ):
            lent = array(kind, [7] * short)
            self.refused(8, 0, "lent room too small", call, name, *given, lent)
            self.assertEqual(list(lent), [7] * short)
        self.refused(9, 0, LENGTH, call, "place", array(ctypes.c_int32, SOUND))

    def test_what_never_reaches_the_library(self):
        for wrong, ask in (
            (OverflowError, lambda: mirtalughe.orient((32768, 0), (0, 0), (0, 0))),
            (OverflowError, lambda: mirtalughe.sweep([(3, 2**31, 0, 0, 0)])),
            (OverflowError, lambda: mirtalughe.sweep([SOUND], 2**32)),
            (OverflowError, lambda: mirtalughe.sweep([SOUND], -1)),
            (OverflowError, lambda: mirtalughe.check([SOUND], [(256, 0)])),
            (ValueError, lambda: mirtalughe.sweep([(3, 0, 0, 4), (4, 3, 0, 4, 4, 0)])),
            (ValueError, lambda: mirtalughe.region([(0, 0, 1)], (0, 0))),
            (TypeError, lambda: mirtalughe.sweep([(3, 0.5, 0, 4, 4)])),
            (TypeError, lambda: call("orient", 1, 2, 3, 4, 5, 6, 7)),
        ):
            with self.assertRaises(wrong):
                ask()

    def test_the_table(self):
        """The header's numbers, each with a sentence."""
        self.assertEqual({fault.value for fault in Fault}, set(header.SENTENCES) - {0})
        self.assertTrue(all(header.SENTENCES.values()))
        self.assertEqual(named(mirtalughe.EntryFault), header.numbers("entry_fault"))
        self.assertEqual({"NONE": 0, **named(mirtalughe.Region)}, header.numbers("to_region"))


def named(enum):
    return {member.name: member.value for member in enum}


class Faces(unittest.TestCase):
    def test_every_call_has_a_face(self):
        """Each call of the header is a function of the package, under its name without `mirtalughe_`."""
        without = [name for name in header.CALLS if not callable(getattr(mirtalughe, name, None))]
        self.assertEqual(without, [], "calls of mirtalughe.h without a face in Python")
        self.assertGreater(len(header.CALLS), 10)


if __name__ == "__main__":
    unittest.main()
