/* The calls of the library libchart_c.a, and its manual. docs/CHART.md has the rules in full; each call keeps them for
   every input, which is proved.

   A chart is a list of int32_t, five numbers a piece: kind, x1, y1, x2, y2. Pieces are numbered from 0. Kind 0 to 3:
   add 1 if the first end is included, 2 if the second is. Points are ordered by x, then y; the lesser end of a piece
   is its min, the other its max. A piece is upright when both its x are equal.

   Lengths.     `size` counts bytes. `length`, `numbers`, and the `lent` beside an int32_t *, count numbers and not bytes;
                the `lent` beside a uint8_t * counts bytes. A `count` or `pairs` that is returned counts pieces or pairs.
   Pointers.    Each is good for the length beside it, aligned as its type. NULL is allowed where that length is 0.
   Overlap.     What is lent (the pointers without const) overlaps nothing else that the call is given, and nobody else
                reads or writes it during the call. What is const nobody writes during the call; it may be one list in
                several calls at once.
   Threads.     A call keeps nothing after it returns and has no state, so that any number may run at once.
   Memory.      Nothing is allocated. A call takes at most 83 KiB of stack, mirtalughe_full_sweep at most 11, as measured
                (tests/stack.c).
   Refusals.    Whatever it is given, a call returns. A refusal has `number` other than MIRTALUGHE_DONE and a `place`;
                every other field is zero or false, and lent memory keeps its content.
   -32,768.     It is no coordinate of a chart. A list or a file that has it is refused with MIRTALUGHE_COORDINATE. Only
                mirtalughe_orient, which takes plain points, takes it, and answers of it as of any other. */
#ifndef MIRTALUGHE_H
#define MIRTALUGHE_H

#include <stdbool.h>
#include <stddef.h>
#include <stdint.h>

#ifdef __cplusplus
extern "C" {
#endif

/* ---- version: of what this header says. MAJOR grows where a program that was right may have to change. */
#define MIRTALUGHE_VERSION_MAJOR 0
#define MIRTALUGHE_VERSION_MINOR 16
#define MIRTALUGHE_VERSION_PATCH 1
#define MIRTALUGHE_VERSION "0.16.1"

/* ---- sizes */
#define MIRTALUGHE_MOST_PIECES 200 /* of a chart */
#define MIRTALUGHE_LIMIT 32767 /* coordinates run from -MIRTALUGHE_LIMIT to MIRTALUGHE_LIMIT */
#define MIRTALUGHE_PIECE_NUMBERS 5 /* kind, x1, y1, x2, y2 */
#define MIRTALUGHE_TWO_PIECES (2 * MIRTALUGHE_PIECE_NUMBERS) /* numbers that a call on two pieces takes */

/* Numbers to lend to mirtalughe_read, whatever the file: those of the largest chart. */
#define MIRTALUGHE_LIST_ROOM (MIRTALUGHE_PIECE_NUMBERS * MIRTALUGHE_MOST_PIECES)

/* The most pieces of a folded line, and the numbers to lend to mirtalughe_fold that are enough for any. */
#define MIRTALUGHE_MOST_FOLDED 200
#define MIRTALUGHE_FOLD_ROOM (MIRTALUGHE_PIECE_NUMBERS * MIRTALUGHE_MOST_FOLDED)
#define MIRTALUGHE_MOST_ORDER 60 /* of a folded line */

/* Bytes of the longest chart file, to lend to mirtalughe_write whatever the chart: the count in two bytes, and of each
   piece its kind in one and four coordinates in three each. */
#define MIRTALUGHE_LONGEST_FILE (2 + 13 * MIRTALUGHE_MOST_PIECES)

/* Bytes to lend for the pairs of n pieces, two a pair; n is evaluated twice. */
#define MIRTALUGHE_PAIRS_ROOM(n) ((n) * ((n)-1))
#define MIRTALUGHE_MOST_PAIRS (MIRTALUGHE_PAIRS_ROOM(MIRTALUGHE_MOST_PIECES) / 2)

/* An open chart: its places, and the numbers to lend for it. */
#define MIRTALUGHE_OPEN_PLACES 200
#define MIRTALUGHE_OPEN_NUMBERS (MIRTALUGHE_PIECE_NUMBERS * MIRTALUGHE_OPEN_PLACES)

/* Of a batch: the most charts, and the numbers that a chart's result is. */
#define MIRTALUGHE_MOST_CHARTS 16
#define MIRTALUGHE_RESULT_NUMBERS 10

/* No sweep of the library takes more steps; UINT32_MAX as a budget is enough for all. */
#define MIRTALUGHE_MOST_STEPS (2 * MIRTALUGHE_MOST_PIECES + MIRTALUGHE_MOST_PAIRS)

/* ---- refusals: what `number` is. A file is looked at for ROOM first and then in reading order, EXTRA_BYTES last; a
   list for LIST_LENGTH, COUNT, then piece by piece for KIND, COORDINATE and NO_LENGTH, then for ROOM or, where pairs
   are given, for ODD_BYTES; mirtalughe_plain_order then for UPRIGHT. The first fault is told. */
typedef enum {
    /* done. Place: 0. */
    MIRTALUGHE_DONE = 0,
    /* the file ends inside a number or before one that is due. Place in a file: where the number starts. */
    MIRTALUGHE_FILE_ENDS = 1,
    /* the third group has its high bit set, or the last of several groups is zero. Place in a file: where the number
       starts. */
    MIRTALUGHE_GROUPS = 2,
    /* count above MIRTALUGHE_MOST_PIECES. Place in a file: where the number starts; in a list: 0. */
    MIRTALUGHE_COUNT = 3,
    /* kind outside 0 to 3. Place in a file: where the number starts; in a list: number of the piece. */
    MIRTALUGHE_KIND = 4,
    /* coordinate out of range. Place in a file: where the number starts; in a list: number of the piece. */
    MIRTALUGHE_COORDINATE = 5,
    /* both ends of a piece equal. Place in a file: where the kind starts; in a list: number of the piece. */
    MIRTALUGHE_NO_LENGTH = 6,
    /* bytes after the last piece. Place in a file: the first extra byte. */
    MIRTALUGHE_EXTRA_BYTES = 7,
    /* lent room too small. Place: 0. */
    MIRTALUGHE_ROOM = 8,
    /* a list's length is no multiple of five or, in a pair call, is not ten. Place in a list: 0. */
    MIRTALUGHE_LIST_LENGTH = 9,
    /* more than 16 charts in one request. Place in a list: 0. */
    MIRTALUGHE_CHARTS = 10,
    /* the lengths don't add up to the list, or fewer bytes are lent than the charts need. Place in a list: 0. */
    MIRTALUGHE_PARTS = 11,
    /* an argument out of range. Place in a list: 0. */
    MIRTALUGHE_ARGUMENT = 12,
    /* mS is above H and m doesn't divide H. Place in a list: 0. */
    MIRTALUGHE_UNEVEN = 13,
    /* more than 200 pieces. Place in a list: 0. */
    MIRTALUGHE_TOO_MANY = 14,
    /* an odd count of numbers or a corner count outside 3 to 64. Place in a list: 0. */
    MIRTALUGHE_OUTLINE = 15,
    /* an odd number of bytes, two a pair. Place in a list: 0. */
    MIRTALUGHE_ODD_BYTES = 16,
    /* all 200 places of an open chart are used. Place in a list: 0. */
    MIRTALUGHE_FULL = 17,
    /* the number to drop from an open chart is free or unknown. Place in a list: 0. */
    MIRTALUGHE_UNUSED = 18,
    /* an upright piece, where none may be. Place in a list: 0. */
    MIRTALUGHE_UPRIGHT = 19
} mirtalughe_refusal;

/* ---- answers. `number` is one of mirtalughe_refusal, and `place` a byte of the file or the number of a piece. */

/* `count` pieces read, drawn or standing on an open chart, bytes written, pairs listed, or charts swept. */
typedef struct {
    uint8_t number;
    size_t place;
    size_t count;
} mirtalughe_answer;

/* What a change of an open chart answers: `piece` is the number of the piece that was added or dropped. */
typedef struct {
    uint8_t number;
    size_t place;
    size_t piece;
} mirtalughe_changed;

/* What `meets` is: of mirtalughe_meeting NOTHING, CROSSING or OVERLAP, of mirtalughe_place NOTHING, AT or ALONG. */
typedef enum {
    MIRTALUGHE_NOTHING = 0, /* no point lies on both pieces */
    MIRTALUGHE_CROSSING = 1, /* the two lines have one common point, and it lies on both pieces */
    MIRTALUGHE_OVERLAP = 2, /* both pieces lie on one line and share a stretch of it, or one point of it */
    MIRTALUGHE_AT = 1, /* the one point that the pieces share: a crossing's, or an overlap's of one point */
    MIRTALUGHE_ALONG = 2 /* an overlap's stretch of more than one point, from its min to its max */
} mirtalughe_meets;

typedef struct {
    int16_t x, y;
    bool included;
} mirtalughe_end;

/* How two pieces meet. Where `meets` is MIRTALUGHE_OVERLAP, `min` and `max` are the ends of the common stretch, each
   with its mark; where the two share one point only, both are that point, included. Else they are zero and false. */
typedef struct {
    uint8_t number;
    size_t place;
    uint8_t meets;
    mirtalughe_end min, max;
} mirtalughe_met;

/* Where two pieces meet: MIRTALUGHE_AT x1, y1, where they share one point only, of one line or not, or MIRTALUGHE_ALONG
   from x1, y1 to x2, y2, which differ. Values that are not in use are zero. */
typedef struct {
    uint8_t number;
    size_t place;
    uint8_t meets;
    double x1, y1, x2, y2;
} mirtalughe_placed;

/* What a sweep says: `pairs` pairs are listed; `steps` steps were done; `ended`, the queue is empty, so that a larger
   budget would do no more; `complete`, of mirtalughe_full_sweep always true, of mirtalughe_sweep that no piece is
   upright. Where `ended` and `complete`, every pair that meets is listed; where `complete` is false, pairs may be missing
   even then (mirtalughe_full_sweep and mirtalughe_all_pairs have them). Where `visited`, the last point is x/d, y/d in
   lowest terms, d above 0; at zero steps nothing is visited and all three are zero. `examined`, of mirtalughe_sweep how many
   adjacent pairs were examined, skipped ones too, in all steps done: at most 2(n-1) a step for n pieces, n of at least 1, and
   so at most 2(n-1)(2n+k) on a chart with k pairs that meet; of mirtalughe_full_sweep, which makes no such pass, 0. */
typedef struct {
    uint8_t number;
    size_t place;
    size_t pairs;
    uint32_t steps;
    bool ended, complete, visited;
    int64_t x, y;
    uint64_t d;
    uint64_t examined;
} mirtalughe_swept;

/* A chart's result in a batch: what mirtalughe_swept says, each in 64 bits. MIRTALUGHE_RESULT_NUMBERS numbers, no gaps. */
typedef struct {
    uint64_t number, place, pairs, steps, ended, complete, visited;
    int64_t x, y;
    uint64_t d;
} mirtalughe_result;

/* What is said of a list of pairs, what `first` and `second` are then, and the faults of an entry: of several it has the
   first. Refused, `says` is 0. */
typedef enum {
    MIRTALUGHE_ACCEPTED = 1, /* each meeting pair is named once, and no other; both are 0 */
    MIRTALUGHE_FAULT = 2, /* the first entry at fault, counted from 0, and its fault */
    MIRTALUGHE_MISSING = 3 /* all entries are good; the first pair that meets and is not named, greater number first */
} mirtalughe_says;

typedef enum {
    MIRTALUGHE_NO_PIECE = 1, /* one of its numbers is not a piece's */
    MIRTALUGHE_ITSELF = 2, /* both numbers are equal */
    MIRTALUGHE_APART = 3, /* its pair does not meet */
    MIRTALUGHE_REPEATED = 4 /* it repeats the pair of an earlier entry */
} mirtalughe_entry_fault;

typedef struct {
    uint8_t number;
    size_t place;
    uint8_t says;
    size_t first, second;
} mirtalughe_checked;

/* What `region` is. */
typedef enum {
    MIRTALUGHE_NONE = 0, /* the call is refused */
    MIRTALUGHE_ON = 1, /* some side, both ends included, has the peak */
    MIRTALUGHE_INSIDE = 2,
    MIRTALUGHE_OUTSIDE = 3
} mirtalughe_to_region;

/* Where a peak lies to a region. */
typedef struct {
    uint8_t number;
    size_t place;
    uint8_t region;
} mirtalughe_located;

/* How a half-line meets a piece: MIRTALUGHE_NOTHING or MIRTALUGHE_CROSSING. A crossing carries `turn`, as of
   mirtalughe_orient: 0 where the piece's ends lie on both sides of the line, and where one end is on the line the side of
   the other. */
typedef struct {
    uint8_t number;
    size_t place;
    uint8_t meets;
    int8_t turn;
} mirtalughe_half_met;

/* ---- calls */

/* Which way the three points turn: 1 counter-clockwise, -1 clockwise, 0 not at all. It is exact for every int16_t. */
int8_t mirtalughe_orient(int16_t x1, int16_t y1, int16_t x2, int16_t y2, int16_t x3, int16_t y3);

/* Which of the points x1/d1, y1/d1 and x2/d2, y2/d2 comes first, by x, then y: -1 the first, 1 the second, 0 neither.
   It is exact for every value. With d = 0 there is no point: the call then says how x1 * d2 compares with x2 * d1
   and, where these are equal, y1 * d2 with y2 * d1, which is no order of points. */
int8_t mirtalughe_compare_points(int64_t x1, int64_t y1, uint64_t d1, int64_t x2, int64_t y2, uint64_t d2);

/* Reads a chart file into a lent list and returns the count of pieces. `lent` is at least MIRTALUGHE_LIST_ROOM,
   whatever the file. Numbers past the last piece keep their values. */
mirtalughe_answer mirtalughe_read(const uint8_t *file, size_t size, int32_t *list, size_t lent);

/* Writes a list's chart file into lent bytes and returns the count of them. `lent` is at least MIRTALUGHE_LONGEST_FILE,
   whatever the chart. Bytes past the file keep their values. Reading what was written gives the list again. */
mirtalughe_answer mirtalughe_write(const int32_t *list, size_t length, uint8_t *file, size_t lent);

/* Draws m times x, folded at 0 and h, from x = 0 to s, into a lent list, and returns the count of pieces: m from 1 to
   MIRTALUGHE_MOST_ORDER, h, half the sampling rate, and s, the top speed, from 1 to MIRTALUGHE_LIMIT, all in one unit. A
   piece runs from joint to joint, from left to right; it includes its first end and excludes its last, and the final one
   includes both. So at every x from 0 to s one piece holds the folded value. Refusals: MIRTALUGHE_ARGUMENT,
   MIRTALUGHE_UNEVEN where a joint jh/m would not be whole, MIRTALUGHE_TOO_MANY, MIRTALUGHE_ROOM where `lent` is under
   five numbers a piece; MIRTALUGHE_FOLD_ROOM is always enough. Numbers past the last piece keep their values. The list is
   a chart. */
mirtalughe_answer mirtalughe_fold(uint32_t m, uint32_t h, uint32_t s, int32_t *list, size_t lent);

/* How the two pieces of a list meet, the first one asking; `length` is MIRTALUGHE_TWO_PIECES. */
mirtalughe_met mirtalughe_meeting(const int32_t *list, size_t length);

/* Where the two pieces of a list meet; `length` is MIRTALUGHE_TWO_PIECES. Along, the values are the stretch's ends,
   whole and exact, and so is the one point of two pieces on one line. At, each is the double nearest to the exact
   value, ties to even, within 1/2^39 of it, and never negative zero; for this the processor's rounding mode is the
   default one, to the nearest, during the call. */
mirtalughe_placed mirtalughe_place(const int32_t *list, size_t length);

/* Every pair of a list's n pieces that meet, two bytes a pair, the greater number first: for a from 0, for b below a.
   `lent` is at least MIRTALUGHE_PAIRS_ROOM(n). Bytes past the last pair keep their values. */
mirtalughe_answer mirtalughe_all_pairs(const int32_t *list, size_t length, uint8_t *pairs, size_t lent);

/* Sweeps a list's n pieces from left to right, at most `budget` steps, a visited point each, and lists the pairs that
   meet, two bytes a pair, the lesser number first, by their first common points, then the lesser number, then the
   greater. Wherever it stops, no pair is missing whose first common point is at or before the last point visited, with
   upright pieces or without. `lent` is at least MIRTALUGHE_PAIRS_ROOM(n). Bytes past the last pair keep their values.
   This is the sweep to call, unless the answers have to be the Rust's. */
mirtalughe_swept mirtalughe_full_sweep(const int32_t *list, size_t length, uint32_t budget, uint8_t *pairs, size_t lent);

/* The pairs of a list's n pieces that meet, two bytes a pair, the lesser number first, put by their first common point,
   then by the lesser number, then by the greater. None of the pieces is upright. `lent` is at least
   MIRTALUGHE_PAIRS_ROOM(n). Bytes past the last pair keep their values. mirtalughe_sweep, once it has ended, leaves the
   same list. */
mirtalughe_answer mirtalughe_plain_order(const int32_t *list, size_t length, uint8_t *pairs, size_t lent);

/* Sweeps as the Rust does, step by step. On a chart with no upright piece the answer and the bytes are those of
   mirtalughe_full_sweep, at every budget, but for `examined`; with upright pieces some pairs may be missing, and `complete` is false. */
mirtalughe_swept mirtalughe_sweep(const int32_t *list, size_t length, uint32_t budget, uint8_t *pairs, size_t lent);

/* Sweeps up to MIRTALUGHE_MOST_CHARTS charts in one call, each to its end, and returns their count. Their lists stand end
   to end in `list`; `lengths` has the count of numbers of each. Each chart has its own part of `pairs`, end to end in chart
   order, of MIRTALUGHE_PAIRS_ROOM(n) bytes for n pieces, and of none where its length is no multiple of
   MIRTALUGHE_PIECE_NUMBERS or it has too many pieces; and its own result, MIRTALUGHE_RESULT_NUMBERS of the numbers lent:
   an array of mirtalughe_result, cast to uint64_t *, takes them. Part and result are what mirtalughe_full_sweep with UINT32_MAX
   steps leaves and says of the chart alone; a chart that is refused disturbs no other. Bytes past the last part and numbers
   past the last result keep their values. Refusals of the whole call, before any chart is looked at: MIRTALUGHE_CHARTS, then
   MIRTALUGHE_PARTS, then MIRTALUGHE_ROOM where fewer than MIRTALUGHE_RESULT_NUMBERS numbers a chart are lent. */
mirtalughe_answer mirtalughe_sweep_batch(const int32_t *list, size_t length, const size_t *lengths, size_t charts, uint8_t *pairs, size_t lent, uint64_t *results, size_t numbers);

/* Holds a list of pairs, `size` bytes, two a pair in any order, to a list's pieces: whether it names each pair that meets
   once, in either number order, and if not, where it is wrong. A list of pairs may be of any length. Nothing is lent. */
mirtalughe_checked mirtalughe_check(const int32_t *list, size_t length, const uint8_t *pairs, size_t size);

/* Where the peak x, y lies to the region of a closed outline of 3 to 64 corners, two numbers a corner: on a side, or else
   inside by the even-odd rule, whether or not the outline crosses itself. x stops at 32,766. Refusals:
   MIRTALUGHE_OUTLINE, then MIRTALUGHE_COORDINATE at the first corner out of range, MIRTALUGHE_NO_LENGTH at the first
   corner equal to its next (the first follows the last), MIRTALUGHE_COORDINATE for the peak. The place is the corner's
   number, else zero. */
mirtalughe_located mirtalughe_region(const int32_t *outline, size_t length, int32_t x, int32_t y);

/* How the half-line from x, y through tx, ty meets the piece of five numbers, whose marks do not matter. Refusals:
   MIRTALUGHE_KIND, MIRTALUGHE_COORDINATE, MIRTALUGHE_NO_LENGTH of the piece, then MIRTALUGHE_COORDINATE and
   MIRTALUGHE_NO_LENGTH of the two points. The place is zero. */
mirtalughe_half_met mirtalughe_half_line(int32_t kind, int32_t x1, int32_t y1, int32_t x2, int32_t y2, int32_t x, int32_t y, int32_t tx, int32_t ty);

/* An open chart: pieces come and go, and the numbers of the others stay. It has MIRTALUGHE_OPEN_PLACES places in lent
   memory of at least MIRTALUGHE_OPEN_NUMBERS numbers, five a place; numbers past those keep their values. A place is used
   when its five numbers are a piece, and free otherwise, whatever they are; one that a call leaves free has -1 five times.
   So the piece of place i stands at chart + 5 * i. Less memory is refused with MIRTALUGHE_ROOM, before anything else; the
   place of every refusal is zero, and a refused call alters nothing. */

/* Makes an open chart without pieces of lent memory, whatever stands in it. `count` is 0. */
mirtalughe_answer mirtalughe_open_empty(int32_t *chart, size_t lent);

/* Adds a piece at the lowest free place; `piece` is its number from then on. Refusals: MIRTALUGHE_KIND,
   MIRTALUGHE_COORDINATE, MIRTALUGHE_NO_LENGTH, then MIRTALUGHE_FULL. */
mirtalughe_changed mirtalughe_open_add(int32_t *chart, size_t lent, int32_t kind, int32_t x1, int32_t y1, int32_t x2, int32_t y2);

/* Drops the piece of a number, whose place is then free. MIRTALUGHE_UNUSED where no piece has that number. */
mirtalughe_changed mirtalughe_open_drop(int32_t *chart, size_t lent, size_t piece);

/* How many pieces stand on an open chart. */
mirtalughe_answer mirtalughe_open_used(const int32_t *chart, size_t length);

/* Every pair of the n pieces of an open chart that meet, by their own numbers, two bytes a pair, the greater number first:
   for a from 0, for b below a. `lent` is at least MIRTALUGHE_PAIRS_ROOM(n); MIRTALUGHE_PAIRS_ROOM(MIRTALUGHE_OPEN_PLACES)
   is always enough. Bytes past the last pair keep their values. */
mirtalughe_answer mirtalughe_open_pairs(const int32_t *chart, size_t length, uint8_t *pairs, size_t lent);

#ifdef __cplusplus
}
#endif

#endif
