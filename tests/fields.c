/* Reads every field of a telling answer of every call, refused ones too, and holds it to the value that docs/CHART.md gives:
   no two fields of one type are equal in all answers, so that two exchanged in the header are told. Then the sizes of the
   header from both sides, and what it says of NULL, of -32,768 and of d = 0. */
#include <stdio.h>
#include <string.h>

#include "mirtalughe.h"

enum { KEPT = 0x5A };

static int checks, wrong;

static void check(int line, const char *told, bool right) {
    checks++;
    if (right) return;
    wrong++;
    printf("fields: line %d: %s\n", line, told);
}
#define CHECK(fact) check(__LINE__, #fact, fact)
#define LENGTH(array) (sizeof(array) / sizeof *(array))
/* the single call that a batch makes of each chart */
#define SINGLE mirtalughe_full_sweep

static int32_t list[MIRTALUGHE_LIST_ROOM + MIRTALUGHE_PIECE_NUMBERS];
static uint8_t pairs[MIRTALUGHE_PAIRS_ROOM(MIRTALUGHE_MOST_PIECES) + 1];

/* Two pieces that cross at 5/3, 10/3. */
static const int32_t crossing[] = {3, 0, 0, 3, 6, 3, 0, 5, 5, 0};
/* Two on one line that share the stretch from 1, 2, excluded, to 4, 8, included. */
static const int32_t overlap[] = {3, 0, 0, 6, 12, 2, 1, 2, 4, 8};
/* Two on one line that share one point. */
static const int32_t touching[] = {3, 0, 0, 2, 1, 3, 2, 1, 6, 3};
/* Two that do not meet: the one end that touches is excluded. */
static const int32_t apart[] = {3, 0, 0, 4, 0, 2, 2, 0, 3, 5};
/* The upright gap of docs/CHART.md. */
static const int32_t gap[] = {3, 0, 0, 0, 10, 3, -5, 3, 5, 3, 3, -5, 6, 5, 6};
/* Piece 1 is at fault, with 4, 5 and 6. */
static const int32_t kind[] = {3, 0, 0, 3, 6, 4, 0, 5, 5, 0};
static const int32_t coordinate[] = {3, 0, 0, 3, 6, 3, 0, 5, 5, -32768};
static const int32_t no_length[] = {3, 0, 0, 3, 6, 3, 5, 1, 5, 1};

static void answers_of_read(void) {
    static const uint8_t file[] = {2, 3, 0, 0, 8, 8, 3, 0, 8, 8, 0};
    static const int32_t numbers[] = {3, 0, 0, 4, 4, 3, 0, 4, 4, 0};
    for (size_t i = 0; i < LENGTH(list); i++) list[i] = KEPT;
    mirtalughe_answer read = mirtalughe_read(file, sizeof file, list, MIRTALUGHE_LIST_ROOM);
    CHECK(read.number == MIRTALUGHE_DONE);
    CHECK(read.place == 0);
    CHECK(read.count == 2);
    CHECK(memcmp(list, numbers, sizeof numbers) == 0);
    CHECK(list[LENGTH(numbers)] == KEPT);

    static const struct {
        uint8_t bytes[8];
        size_t size;
        mirtalughe_refusal number;
        size_t place;
    } wrongs[] = {
        {{1, 3, 0}, 3, MIRTALUGHE_FILE_ENDS, 3},
        {{1, 3, 0, 0x80, 0}, 5, MIRTALUGHE_GROUPS, 3},
        {{0x81}, 1, MIRTALUGHE_FILE_ENDS, 0},
        {{0x81, 0}, 2, MIRTALUGHE_GROUPS, 0},
        {{(MIRTALUGHE_MOST_PIECES + 1) % 128 + 128, (MIRTALUGHE_MOST_PIECES + 1) / 128}, 2, MIRTALUGHE_COUNT, 0},
        {{0x81, 0x80, 1}, 3, MIRTALUGHE_COUNT, 0},
        {{1, 4}, 2, MIRTALUGHE_KIND, 1},
        {{1, 3, 0xFF, 0xFF, 3}, 5, MIRTALUGHE_COORDINATE, 2}, /* -32,768 */
        {{1, 3, 2, 4, 2, 4}, 6, MIRTALUGHE_NO_LENGTH, 1},
        {{1, 3, 0, 0, 2, 2, 9}, 7, MIRTALUGHE_EXTRA_BYTES, 6},
    };
    for (size_t i = 0; i < LENGTH(wrongs); i++) {
        mirtalughe_answer refused = mirtalughe_read(wrongs[i].bytes, wrongs[i].size, list, MIRTALUGHE_LIST_ROOM);
        CHECK(refused.number == wrongs[i].number);
        CHECK(refused.place == wrongs[i].place);
        CHECK(refused.count == 0);
    }
    CHECK(memcmp(list, numbers, sizeof numbers) == 0);
}

static void answers_of_write(void) {
    static const uint8_t written[] = {2, 3, 0, 0, 6, 12, 3, 0, 10, 10, 0};
    static uint8_t file[MIRTALUGHE_LONGEST_FILE + 1];
    memset(file, KEPT, sizeof file);
    mirtalughe_answer write = mirtalughe_write(crossing, LENGTH(crossing), file, MIRTALUGHE_LONGEST_FILE);
    CHECK(write.number == MIRTALUGHE_DONE);
    CHECK(write.place == 0);
    CHECK(write.count == sizeof written);
    CHECK(memcmp(file, written, sizeof written) == 0);
    CHECK(file[sizeof written] == KEPT);

    memset(file, KEPT, sizeof file);
    static const struct {
        const int32_t *list;
        size_t length, lent;
        mirtalughe_refusal number;
        size_t place;
    } wrongs[] = {
        {kind, LENGTH(kind), 0, MIRTALUGHE_KIND, 1},
        {coordinate, LENGTH(coordinate), MIRTALUGHE_LONGEST_FILE, MIRTALUGHE_COORDINATE, 1},
        {no_length, LENGTH(no_length), MIRTALUGHE_LONGEST_FILE, MIRTALUGHE_NO_LENGTH, 1},
        {crossing, LENGTH(crossing) - 1, MIRTALUGHE_LONGEST_FILE, MIRTALUGHE_LIST_LENGTH, 0},
        {crossing, LENGTH(crossing), MIRTALUGHE_LONGEST_FILE - 1, MIRTALUGHE_ROOM, 0},
    };
    for (size_t i = 0; i < LENGTH(wrongs); i++) {
        mirtalughe_answer refused = mirtalughe_write(wrongs[i].list, wrongs[i].length, file, wrongs[i].lent);
        CHECK(refused.number == wrongs[i].number);
        CHECK(refused.place == wrongs[i].place);
        CHECK(refused.count == 0);
    }
    for (size_t i = 0; i < sizeof file; i++) CHECK(file[i] == KEPT);
}

static void answers_of_meeting(void) {
    mirtalughe_met met = mirtalughe_meeting(overlap, MIRTALUGHE_TWO_PIECES);
    CHECK(met.number == MIRTALUGHE_DONE);
    CHECK(met.place == 0);
    CHECK(met.meets == MIRTALUGHE_OVERLAP);
    CHECK(met.min.x == 1);
    CHECK(met.min.y == 2);
    CHECK(!met.min.included);
    CHECK(met.max.x == 4);
    CHECK(met.max.y == 8);
    CHECK(met.max.included);
    met = mirtalughe_meeting(touching, MIRTALUGHE_TWO_PIECES);
    CHECK(met.meets == MIRTALUGHE_OVERLAP);
    CHECK(met.min.x == 2 && met.min.y == 1 && met.min.included);
    CHECK(met.max.x == 2 && met.max.y == 1 && met.max.included);

    mirtalughe_met others[] = {
        mirtalughe_meeting(crossing, MIRTALUGHE_TWO_PIECES),
        mirtalughe_meeting(apart, MIRTALUGHE_TWO_PIECES),
        mirtalughe_meeting(kind, MIRTALUGHE_TWO_PIECES),
        mirtalughe_meeting(overlap, MIRTALUGHE_TWO_PIECES - 1),
    };
    static const uint8_t due[][3] = {
        {MIRTALUGHE_DONE, 0, MIRTALUGHE_CROSSING},
        {MIRTALUGHE_DONE, 0, MIRTALUGHE_NOTHING},
        {MIRTALUGHE_KIND, 1, MIRTALUGHE_NOTHING},
        {MIRTALUGHE_LIST_LENGTH, 0, MIRTALUGHE_NOTHING},
    };
    for (size_t i = 0; i < LENGTH(others); i++) {
        CHECK(others[i].number == due[i][0]);
        CHECK(others[i].place == due[i][1]);
        CHECK(others[i].meets == due[i][2]);
        CHECK(others[i].min.x == 0 && others[i].min.y == 0 && !others[i].min.included);
        CHECK(others[i].max.x == 0 && others[i].max.y == 0 && !others[i].max.included);
    }
}

static void answers_of_place(void) {
    mirtalughe_placed at = mirtalughe_place(crossing, MIRTALUGHE_TWO_PIECES);
    CHECK(at.number == MIRTALUGHE_DONE);
    CHECK(at.place == 0);
    CHECK(at.meets == MIRTALUGHE_AT);
    CHECK(at.x1 == 5.0 / 3.0);
    CHECK(at.y1 == 10.0 / 3.0);
    CHECK(at.x2 == 0 && at.y2 == 0);
    mirtalughe_placed along = mirtalughe_place(overlap, MIRTALUGHE_TWO_PIECES);
    CHECK(along.number == MIRTALUGHE_DONE);
    CHECK(along.place == 0);
    CHECK(along.meets == MIRTALUGHE_ALONG);
    CHECK(along.x1 == 1);
    CHECK(along.y1 == 2);
    CHECK(along.x2 == 4);
    CHECK(along.y2 == 8);
    at = mirtalughe_place(touching, MIRTALUGHE_TWO_PIECES);
    CHECK(at.meets == MIRTALUGHE_AT);
    CHECK(at.x1 == 2 && at.y1 == 1 && at.x2 == 0 && at.y2 == 0);

    mirtalughe_placed others[] = {
        mirtalughe_place(apart, MIRTALUGHE_TWO_PIECES),
        mirtalughe_place(no_length, MIRTALUGHE_TWO_PIECES),
        mirtalughe_place(gap, LENGTH(gap)),
    };
    static const uint8_t due[][2] = {{MIRTALUGHE_DONE, 0}, {MIRTALUGHE_NO_LENGTH, 1}, {MIRTALUGHE_LIST_LENGTH, 0}};
    for (size_t i = 0; i < LENGTH(others); i++) {
        CHECK(others[i].number == due[i][0]);
        CHECK(others[i].place == due[i][1]);
        CHECK(others[i].meets == MIRTALUGHE_NOTHING);
        CHECK(others[i].x1 == 0 && others[i].y1 == 0 && others[i].x2 == 0 && others[i].y2 == 0);
    }
}

static void answers_of_region(void) {
    /* A square with a corner at the height of the peaks asked. */
    static const int32_t outline[] = {0, 0, 4, 0, 6, 2, 4, 4, 0, 4};
    static const int32_t far[] = {0, 0, 4, 0, 4, -32768};
    static const int32_t repeated[] = {0, 0, 4, 0, 4, 4, 4, 4};
    mirtalughe_located told[] = {
        mirtalughe_region(outline, LENGTH(outline), 4, 0),    mirtalughe_region(outline, LENGTH(outline), 1, 2),
        mirtalughe_region(outline, LENGTH(outline), -1, 2),   mirtalughe_region(outline, LENGTH(outline) - 1, 1, 2),
        mirtalughe_region(outline, 4, 1, 2),                  mirtalughe_region(far, LENGTH(far), 1, 2),
        mirtalughe_region(repeated, LENGTH(repeated), 1, 2),  mirtalughe_region(outline, LENGTH(outline), 32767, 2),
        mirtalughe_region(outline, LENGTH(outline), 32766, 2),
    };
    static const uint8_t due[][3] = {
        {0, 0, MIRTALUGHE_ON},         {0, 0, MIRTALUGHE_INSIDE},     {0, 0, MIRTALUGHE_OUTSIDE},
        {MIRTALUGHE_OUTLINE, 0, 0},    {MIRTALUGHE_OUTLINE, 0, 0},    {MIRTALUGHE_COORDINATE, 2, 0},
        {MIRTALUGHE_NO_LENGTH, 2, 0},  {MIRTALUGHE_COORDINATE, 0, 0}, {0, 0, MIRTALUGHE_OUTSIDE},
    };
    for (size_t i = 0; i < LENGTH(told); i++) {
        CHECK(told[i].number == due[i][0]);
        CHECK(told[i].place == due[i][1]);
        CHECK(told[i].region == due[i][2]);
    }
}

static void answers_of_half_line(void) {
    mirtalughe_half_met met = mirtalughe_half_line(3, 2, -1, 2, 1, 0, 0, 1, 0);
    CHECK(met.number == MIRTALUGHE_DONE && met.place == 0 && met.meets == MIRTALUGHE_CROSSING && met.turn == 0);
    met = mirtalughe_half_line(3, 2, 0, 2, 1, 0, 0, 1, 0);
    CHECK(met.meets == MIRTALUGHE_CROSSING && met.turn == 1);
    met = mirtalughe_half_line(3, 2, 0, 2, -1, 0, 0, 1, 0);
    CHECK(met.meets == MIRTALUGHE_CROSSING && met.turn == -1);
    met = mirtalughe_half_line(3, -2, -1, -2, 1, 0, 0, 1, 0);
    CHECK(met.number == MIRTALUGHE_DONE && met.meets == MIRTALUGHE_NOTHING && met.turn == 0);
    CHECK(mirtalughe_half_line(4, 2, -1, 2, 1, 0, 0, 0, 0).number == MIRTALUGHE_KIND);
    CHECK(mirtalughe_half_line(3, 2, 1, 2, 1, 0, 0, 0, 0).number == MIRTALUGHE_NO_LENGTH);
    CHECK(mirtalughe_half_line(3, 2, -1, 2, 1, -32768, 0, 0, 0).number == MIRTALUGHE_COORDINATE);
    CHECK(mirtalughe_half_line(3, 2, -1, 2, 1, 0, 0, 0, 0).number == MIRTALUGHE_NO_LENGTH);
}

static void answers_of_all_pairs(void) {
    memset(pairs, KEPT, sizeof pairs);
    mirtalughe_answer listed = mirtalughe_all_pairs(gap, LENGTH(gap), pairs, MIRTALUGHE_PAIRS_ROOM(3));
    static const uint8_t due[] = {1, 0, 2, 0, KEPT};
    CHECK(listed.number == MIRTALUGHE_DONE);
    CHECK(listed.place == 0);
    CHECK(listed.count == 2);
    CHECK(memcmp(pairs, due, sizeof due) == 0);

    mirtalughe_answer refused = mirtalughe_all_pairs(coordinate, LENGTH(coordinate), pairs, MIRTALUGHE_PAIRS_ROOM(2));
    CHECK(refused.number == MIRTALUGHE_COORDINATE);
    CHECK(refused.place == 1);
    CHECK(refused.count == 0);
    CHECK(memcmp(pairs, due, sizeof due) == 0);
}

static void answers_of_plain_order(void) {
    static const int32_t ties[] = {3, 0, 0, 4, 4, 3, 0, 4, 4, 0, 3, 0, 2, 4, 2, 3, 0, 3, 1, 4};
    memset(pairs, KEPT, sizeof pairs);
    mirtalughe_answer listed = mirtalughe_plain_order(ties, LENGTH(ties), pairs, MIRTALUGHE_PAIRS_ROOM(4));
    static const uint8_t due[] = {1, 3, 0, 1, 0, 2, 1, 2, KEPT};
    CHECK(listed.number == MIRTALUGHE_DONE);
    CHECK(listed.place == 0);
    CHECK(listed.count == 4);
    CHECK(memcmp(pairs, due, sizeof due) == 0);

    mirtalughe_answer refused[] = {
        mirtalughe_plain_order(gap, LENGTH(gap), pairs, MIRTALUGHE_PAIRS_ROOM(3)),
        mirtalughe_plain_order(gap, LENGTH(gap), pairs, MIRTALUGHE_PAIRS_ROOM(3) - 1),
        mirtalughe_plain_order(coordinate, LENGTH(coordinate), pairs, 0),
    };
    static const uint8_t said[][2] = {{MIRTALUGHE_UPRIGHT, 0}, {MIRTALUGHE_ROOM, 0}, {MIRTALUGHE_COORDINATE, 1}};
    for (size_t i = 0; i < LENGTH(refused); i++) {
        CHECK(refused[i].number == said[i][0]);
        CHECK(refused[i].place == said[i][1]);
        CHECK(refused[i].count == 0);
    }
    CHECK(memcmp(pairs, due, sizeof due) == 0);
}

static void is_refused(mirtalughe_swept swept, mirtalughe_refusal number, size_t place) {
    CHECK(swept.number == number);
    CHECK(swept.place == place);
    CHECK(swept.pairs == 0);
    CHECK(swept.steps == 0);
    CHECK(!swept.ended && !swept.complete && !swept.visited);
    CHECK(swept.x == 0 && swept.y == 0 && swept.d == 0);
    CHECK(swept.examined == 0);
}

static void answers_of_sweep(void) {
    memset(pairs, KEPT, sizeof pairs);
    mirtalughe_swept none = mirtalughe_sweep(crossing, LENGTH(crossing), 0, pairs, 2);
    CHECK(none.number == MIRTALUGHE_DONE && none.place == 0 && none.pairs == 0 && none.steps == 0);
    CHECK(!none.ended);
    CHECK(none.complete);
    CHECK(!none.visited);
    CHECK(none.x == 0 && none.y == 0 && none.d == 0);
    CHECK(none.examined == 0);
    CHECK(pairs[0] == KEPT);

    /* (0,0) (0,5) (5/3,10/3) (3,6) (5,0) */
    mirtalughe_swept three = mirtalughe_sweep(crossing, LENGTH(crossing), 3, pairs, 2);
    CHECK(three.number == MIRTALUGHE_DONE);
    CHECK(three.place == 0);
    CHECK(three.pairs == 1);
    CHECK(three.steps == 3);
    CHECK(!three.ended);
    CHECK(three.complete);
    CHECK(three.visited);
    CHECK(three.x == 5);
    CHECK(three.y == 10);
    CHECK(three.d == 3);
    CHECK(three.examined == 2);
    CHECK(pairs[0] == 0 && pairs[1] == 1 && pairs[2] == KEPT);

    mirtalughe_swept upright = mirtalughe_sweep(gap, LENGTH(gap), UINT32_MAX, pairs, MIRTALUGHE_PAIRS_ROOM(3));
    CHECK(upright.number == MIRTALUGHE_DONE && upright.place == 0);
    CHECK(upright.pairs == 1);
    CHECK(upright.steps == 7);
    CHECK(upright.ended);
    CHECK(!upright.complete);
    CHECK(upright.visited);
    CHECK(upright.x == 5 && upright.y == 6 && upright.d == 1);
    CHECK(upright.examined == 8);

    memset(pairs, KEPT, sizeof pairs);
    mirtalughe_swept full = mirtalughe_full_sweep(gap, LENGTH(gap), UINT32_MAX, pairs, MIRTALUGHE_PAIRS_ROOM(3));
    CHECK(full.number == MIRTALUGHE_DONE && full.place == 0);
    CHECK(full.pairs == 2);
    CHECK(full.steps == 8);
    CHECK(full.ended);
    CHECK(full.complete);
    CHECK(full.visited);
    CHECK(full.x == 5 && full.y == 6 && full.d == 1);
    CHECK(full.examined == 0);
    CHECK(pairs[0] == 0 && pairs[1] == 1 && pairs[2] == 0 && pairs[3] == 2 && pairs[4] == KEPT);

    is_refused(mirtalughe_sweep(no_length, LENGTH(no_length), 9, pairs, 2), MIRTALUGHE_NO_LENGTH, 1);
    is_refused(mirtalughe_sweep(crossing, LENGTH(crossing), 9, pairs, 1), MIRTALUGHE_ROOM, 0);
    is_refused(mirtalughe_full_sweep(no_length, LENGTH(no_length), 9, pairs, 2), MIRTALUGHE_NO_LENGTH, 1);
    is_refused(mirtalughe_full_sweep(crossing, LENGTH(crossing), 9, pairs, 1), MIRTALUGHE_ROOM, 0);
}

/* Of chart i of a batch: its result is what a sweep of it alone says. */
static void is_alone(mirtalughe_result told, mirtalughe_swept alone) {
    CHECK(told.number == alone.number);
    CHECK(told.place == alone.place);
    CHECK(told.pairs == alone.pairs);
    CHECK(told.steps == alone.steps);
    CHECK(told.ended == alone.ended);
    CHECK(told.complete == alone.complete);
    CHECK(told.visited == alone.visited);
    CHECK(told.x == alone.x);
    CHECK(told.y == alone.y);
    CHECK(told.d == alone.d);
}

static void answers_of_sweep_batch(void) {
    /* Ends below zero at -2, -9. */
    static const int32_t below[] = {3, -5, -1, -2, -9};
    static int32_t all[64];
    static mirtalughe_result results[MIRTALUGHE_MOST_CHARTS + 1];
    static const size_t lengths[] = {LENGTH(below), LENGTH(crossing), 3, LENGTH(kind), 0, LENGTH(gap)};
    static const size_t short_by_one[] = {LENGTH(crossing) - 1}, wrapping[] = {SIZE_MAX, LENGTH(crossing) + 1};
    static const size_t none[MIRTALUGHE_MOST_CHARTS + 1] = {0};
    const int32_t *lists[] = {below, crossing, kind, kind, NULL, gap};
    int32_t *end = all;
    for (size_t i = 0; i < LENGTH(lengths); i++) {
        if (lengths[i]) memcpy(end, lists[i], lengths[i] * sizeof *all);
        end += lengths[i];
    }
    size_t length = (size_t)(end - all), room = 2 + 2 + MIRTALUGHE_PAIRS_ROOM(3);
    uint64_t *numbers = (uint64_t *)results;
    size_t enough = MIRTALUGHE_RESULT_NUMBERS * LENGTH(lengths);
    CHECK(sizeof(mirtalughe_result) == MIRTALUGHE_RESULT_NUMBERS * sizeof(uint64_t));

    memset(pairs, KEPT, sizeof pairs);
    memset(results, KEPT, sizeof results);
    mirtalughe_answer refused[] = {
        mirtalughe_sweep_batch(all, length, none, LENGTH(none), pairs, 0, numbers, 0),
        mirtalughe_sweep_batch(all, length - 1, lengths, LENGTH(lengths), pairs, room, numbers, enough),
        mirtalughe_sweep_batch(crossing, LENGTH(crossing), short_by_one, 1, pairs, room, numbers, enough),
        mirtalughe_sweep_batch(crossing, LENGTH(crossing), wrapping, 2, pairs, room, numbers, enough),
        mirtalughe_sweep_batch(all, length, lengths, LENGTH(lengths), pairs, room - 1, numbers, 0),
        mirtalughe_sweep_batch(all, length, lengths, LENGTH(lengths), pairs, room, numbers, enough - 1),
    };
    static const uint8_t due[] = {MIRTALUGHE_CHARTS, MIRTALUGHE_PARTS, MIRTALUGHE_PARTS, MIRTALUGHE_PARTS, MIRTALUGHE_PARTS, MIRTALUGHE_ROOM};
    for (size_t i = 0; i < LENGTH(refused); i++) {
        CHECK(refused[i].number == due[i]);
        CHECK(refused[i].place == 0);
        CHECK(refused[i].count == 0);
    }
    for (size_t i = 0; i < room; i++) CHECK(pairs[i] == KEPT);
    for (size_t i = 0; i < sizeof results; i++) CHECK(((uint8_t *)results)[i] == KEPT);

    mirtalughe_answer swept = mirtalughe_sweep_batch(all, length, lengths, LENGTH(lengths), pairs, sizeof pairs, numbers, enough);
    CHECK(swept.number == MIRTALUGHE_DONE);
    CHECK(swept.place == 0);
    CHECK(swept.count == LENGTH(lengths));
    for (size_t i = 0; i < sizeof *results; i++) CHECK(((uint8_t *)(results + LENGTH(lengths)))[i] == KEPT);
    static uint8_t alone[LENGTH(gap)];
    int32_t *start = all;
    size_t at = 0;
    static const size_t parts[] = {0, 2, 0, 2, 0, MIRTALUGHE_PAIRS_ROOM(3)};
    for (size_t i = 0; i < LENGTH(lengths); i++) {
        memset(alone, KEPT, sizeof alone);
        is_alone(results[i], SINGLE(start, lengths[i], UINT32_MAX, alone, parts[i]));
        CHECK(memcmp(pairs + at, alone, parts[i]) == 0);
        start += lengths[i];
        at += parts[i];
    }
    for (; at < sizeof pairs; at++) CHECK(pairs[at] == KEPT);
    CHECK(results[0].visited == 1 && results[0].x == -2 && results[0].y == -9 && results[0].d == 1);
    CHECK(results[2].number == MIRTALUGHE_LIST_LENGTH && results[3].number == MIRTALUGHE_KIND && results[3].place == 1);
    CHECK(results[4].ended == 1 && results[4].steps == 0 && results[4].visited == 0);

    CHECK(mirtalughe_sweep_batch(NULL, 0, none, MIRTALUGHE_MOST_CHARTS, NULL, 0, numbers, MIRTALUGHE_RESULT_NUMBERS * MIRTALUGHE_MOST_CHARTS).count == MIRTALUGHE_MOST_CHARTS);
}

static void numbers(void) {
    CHECK(mirtalughe_orient(0, 0, 4, 0, 4, 4) == 1);
    CHECK(mirtalughe_orient(0, 0, 4, 4, 4, 0) == -1);
    CHECK(mirtalughe_orient(0, 0, 2, 2, 4, 4) == 0);
    CHECK(mirtalughe_orient(-32768, -32768, 32767, -32768, 32767, 32767) == 1);
    CHECK(mirtalughe_compare_points(2, 9, 3, 3, 0, 4) == -1);
    CHECK(mirtalughe_compare_points(1, 2, 2, 2, 3, 4) == 1);
    CHECK(mirtalughe_compare_points(2, 2, 3, 4, 4, 6) == 0);
    CHECK(mirtalughe_compare_points(INT64_MIN, 0, 1, INT64_MIN + 1, 0, 1) == -1);
    CHECK(mirtalughe_compare_points(INT64_MAX, 0, UINT64_MAX, INT64_MAX - 1, 0, UINT64_MAX - 2) == 1);
    /* d = 0: 1 * 3 and 2 * 0; -1 * 7 and 7 * 0; 0 and 0, then 5 * 7 and 7 * 0 */
    CHECK(mirtalughe_compare_points(1, 0, 0, 2, 0, 3) == 1);
    CHECK(mirtalughe_compare_points(-1, 5, 0, 7, 7, 7) == -1);
    CHECK(mirtalughe_compare_points(0, 5, 0, 7, 7, 7) == 1);
    CHECK(mirtalughe_compare_points(0, 0, 0, 7, 7, 7) == 0);
}

/* So many pieces of which every two cross, each at a point of its own. */
/* Every two cross, all at points of their own; every coordinate takes three groups. */
static size_t every_two_cross(int32_t pieces) {
    int32_t *at = list;
    for (int32_t i = 0; i < pieces; i++) {
        int32_t piece[] = {3, -MIRTALUGHE_LIMIT, 8200 + 120 * i, MIRTALUGHE_LIMIT, 32700 - i * (i + 1) / 2};
        memcpy(at, piece, sizeof piece);
        at += MIRTALUGHE_PIECE_NUMBERS;
    }
    return (size_t)(at - list);
}

static void answers_of_check(void) {
    static const struct {
        uint8_t bytes[6];
        size_t size;
        uint8_t says;
        size_t first, second;
    } lists[] = {
        {{1, 0, 2, 0}, 4, MIRTALUGHE_ACCEPTED, 0, 0},
        {{0, 2, 0, 1}, 4, MIRTALUGHE_ACCEPTED, 0, 0},
        {{1, 0}, 2, MIRTALUGHE_MISSING, 2, 0},
        {{2, 0, 0, 3}, 4, MIRTALUGHE_FAULT, 1, MIRTALUGHE_NO_PIECE},
        {{0, 1, 2, 2}, 4, MIRTALUGHE_FAULT, 1, MIRTALUGHE_ITSELF},
        {{1, 0, 2, 1}, 4, MIRTALUGHE_FAULT, 1, MIRTALUGHE_APART},
        {{1, 0, 2, 0, 0, 1}, 6, MIRTALUGHE_FAULT, 2, MIRTALUGHE_REPEATED},
    };
    for (size_t i = 0; i < LENGTH(lists); i++) {
        mirtalughe_checked checked = mirtalughe_check(gap, LENGTH(gap), lists[i].bytes, lists[i].size);
        CHECK(checked.number == MIRTALUGHE_DONE);
        CHECK(checked.place == 0);
        CHECK(checked.says == lists[i].says);
        CHECK(checked.first == lists[i].first);
        CHECK(checked.second == lists[i].second);
    }
    static const uint8_t named[] = {1, 0, 9};
    /* the end that touches is excluded */
    mirtalughe_checked excluded = mirtalughe_check(apart, LENGTH(apart), named, 2);
    CHECK(excluded.says == MIRTALUGHE_FAULT && excluded.first == 0 && excluded.second == MIRTALUGHE_APART);
    mirtalughe_checked refused[] = {
        mirtalughe_check(crossing, LENGTH(crossing), named, 3),
        mirtalughe_check(kind, LENGTH(kind), named, 3),
        mirtalughe_check(crossing, LENGTH(crossing) - 1, named, 2),
    };
    static const uint8_t due[][2] = {{MIRTALUGHE_ODD_BYTES, 0}, {MIRTALUGHE_KIND, 1}, {MIRTALUGHE_LIST_LENGTH, 0}};
    for (size_t i = 0; i < LENGTH(refused); i++) {
        CHECK(refused[i].number == due[i][0]);
        CHECK(refused[i].place == due[i][1]);
        CHECK(refused[i].says == 0 && refused[i].first == 0 && refused[i].second == 0);
    }
}

/* Four times x folded at 12, up to 5: one joint, at 3. */
static void answers_of_fold(void) {
    static int32_t line[MIRTALUGHE_FOLD_ROOM + MIRTALUGHE_PIECE_NUMBERS];
    static const int32_t numbers[] = {1, 0, 0, 3, 12, 3, 3, 12, 5, 4};
    for (size_t i = 0; i < LENGTH(line); i++) line[i] = KEPT;
    mirtalughe_answer drawn = mirtalughe_fold(4, 12, 5, line, 11);
    CHECK(drawn.number == MIRTALUGHE_DONE);
    CHECK(drawn.place == 0);
    CHECK(drawn.count == 2);
    CHECK(memcmp(line, numbers, sizeof numbers) == 0);
    CHECK(line[LENGTH(numbers)] == KEPT);

    static const struct {
        uint32_t m, h, s;
        size_t lent;
        mirtalughe_refusal number;
    } wrongs[] = {
        {0, 1, 1, 5, MIRTALUGHE_ARGUMENT},
        {MIRTALUGHE_MOST_ORDER + 1, 1, 1, 5, MIRTALUGHE_ARGUMENT},
        {1, MIRTALUGHE_LIMIT + 1, 1, 5, MIRTALUGHE_ARGUMENT},
        {1, 1, UINT32_MAX, 5, MIRTALUGHE_ARGUMENT},
        {2, 401, 201, 5, MIRTALUGHE_UNEVEN},
        {2, 1, 201, 0, MIRTALUGHE_UNEVEN},
        {1, 1, MIRTALUGHE_MOST_FOLDED + 1, 0, MIRTALUGHE_TOO_MANY},
        {4, 12, 5, 9, MIRTALUGHE_ROOM},
    };
    for (size_t i = 0; i < LENGTH(wrongs); i++) {
        mirtalughe_answer refused = mirtalughe_fold(wrongs[i].m, wrongs[i].h, wrongs[i].s, line, wrongs[i].lent);
        CHECK(refused.number == wrongs[i].number);
        CHECK(refused.place == 0);
        CHECK(refused.count == 0);
    }
    CHECK(memcmp(line, numbers, sizeof numbers) == 0);
    CHECK(mirtalughe_fold(1, 1, MIRTALUGHE_MOST_FOLDED, line, MIRTALUGHE_FOLD_ROOM).count == MIRTALUGHE_MOST_FOLDED);
    CHECK(line[MIRTALUGHE_FOLD_ROOM] == KEPT);
    /* m does not divide H, but the line does not fold; and -1 is no argument */
    CHECK(mirtalughe_fold(2, 9, 4, line, 5).count == 1);
    CHECK(mirtalughe_fold((uint32_t)-1, 1, 1, line, 5).number == MIRTALUGHE_ARGUMENT);
}

static int32_t chart[MIRTALUGHE_OPEN_NUMBERS + 1];

/* The numbers of the chart are all -1, but five at a place, and what stands past them is kept. */
static bool stands(size_t place, const int32_t *piece) {
    for (size_t i = 0; i < MIRTALUGHE_OPEN_NUMBERS; i++) {
        bool there = piece != NULL && i / MIRTALUGHE_PIECE_NUMBERS == place;
        if (chart[i] != (there ? piece[i % MIRTALUGHE_PIECE_NUMBERS] : -1)) return false;
    }
    return chart[MIRTALUGHE_OPEN_NUMBERS] == KEPT;
}

static void changed(mirtalughe_changed told, uint8_t number, size_t piece) {
    CHECK(told.number == number);
    CHECK(told.place == 0);
    CHECK(told.piece == piece);
}

static void answers_of_open(void) {
    static const int32_t first[] = {3, 0, 0, 3, 6}, second[] = {2, 0, 5, 5, 0};
    for (size_t i = 0; i < LENGTH(chart); i++) chart[i] = KEPT;
    mirtalughe_answer short_of = mirtalughe_open_empty(chart, MIRTALUGHE_OPEN_NUMBERS - 1);
    CHECK(short_of.number == MIRTALUGHE_ROOM && short_of.place == 0 && short_of.count == 0 && chart[0] == KEPT);
    mirtalughe_answer emptied = mirtalughe_open_empty(chart, LENGTH(chart));
    CHECK(emptied.number == MIRTALUGHE_DONE && emptied.place == 0 && emptied.count == 0);
    CHECK(stands(0, NULL));
    size_t lent = LENGTH(chart);
    changed(mirtalughe_open_add(chart, lent, 3, 0, 0, 3, 6), MIRTALUGHE_DONE, 0);
    CHECK(stands(0, first));
    changed(mirtalughe_open_add(chart, lent, 2, 0, 5, 5, 0), MIRTALUGHE_DONE, 1);
    changed(mirtalughe_open_add(chart, lent, 3, 0, 9, 9, 9), MIRTALUGHE_DONE, 2);
    changed(mirtalughe_open_drop(chart, lent, 2), MIRTALUGHE_DONE, 2);
    changed(mirtalughe_open_drop(chart, lent, 2), MIRTALUGHE_UNUSED, 0);
    changed(mirtalughe_open_drop(chart, lent, MIRTALUGHE_OPEN_PLACES), MIRTALUGHE_UNUSED, 0);
    changed(mirtalughe_open_drop(chart, MIRTALUGHE_OPEN_NUMBERS - 1, 1), MIRTALUGHE_ROOM, 0);
    changed(mirtalughe_open_add(chart, lent, 4, 0, 5, 5, 0), MIRTALUGHE_KIND, 0);
    changed(mirtalughe_open_add(chart, lent, 3, 0, 5, 5, -32768), MIRTALUGHE_COORDINATE, 0);
    changed(mirtalughe_open_add(chart, lent, 3, 5, 1, 5, 1), MIRTALUGHE_NO_LENGTH, 0);
    changed(mirtalughe_open_add(chart, MIRTALUGHE_OPEN_NUMBERS - 1, 4, 0, 5, 5, 0), MIRTALUGHE_ROOM, 0);

    mirtalughe_answer used = mirtalughe_open_used(chart, lent);
    CHECK(used.number == MIRTALUGHE_DONE && used.place == 0 && used.count == 2);
    CHECK(mirtalughe_open_used(chart, MIRTALUGHE_OPEN_NUMBERS - 1).number == MIRTALUGHE_ROOM);
    memset(pairs, KEPT, sizeof pairs);
    mirtalughe_answer listed = mirtalughe_open_pairs(chart, lent, pairs, 3);
    CHECK(listed.number == MIRTALUGHE_DONE && listed.place == 0 && listed.count == 1);
    CHECK(pairs[0] == 1 && pairs[1] == 0 && pairs[2] == KEPT);
    changed(mirtalughe_open_drop(chart, lent, 0), MIRTALUGHE_DONE, 0);
    CHECK(stands(1, second));
    CHECK(mirtalughe_open_pairs(chart, lent, NULL, 0).count == 0);
    changed(mirtalughe_open_add(chart, lent, 3, 0, 0, 3, 6), MIRTALUGHE_DONE, 0);
    mirtalughe_answer tight = mirtalughe_open_pairs(chart, lent, pairs + 2, 1);
    CHECK(tight.number == MIRTALUGHE_ROOM && tight.place == 0 && tight.count == 0 && pairs[2] == KEPT);

    for (size_t i = 2; i < MIRTALUGHE_OPEN_PLACES; i++) changed(mirtalughe_open_add(chart, lent, 3, 0, 9, 9, 9), MIRTALUGHE_DONE, i);
    changed(mirtalughe_open_add(chart, lent, 3, 0, 9, 9, 9), MIRTALUGHE_FULL, 0);
    changed(mirtalughe_open_add(chart, lent, 4, 0, 9, 9, 9), MIRTALUGHE_KIND, 0);
    CHECK(mirtalughe_open_used(chart, lent).count == MIRTALUGHE_OPEN_PLACES);
}

static void sizes(void) {
    CHECK(MIRTALUGHE_MOST_PIECES == 200 && MIRTALUGHE_LIST_ROOM == 1000 && MIRTALUGHE_LONGEST_FILE == 2602);
    CHECK(MIRTALUGHE_PAIRS_ROOM(MIRTALUGHE_MOST_PIECES) == 39800 && MIRTALUGHE_MOST_PAIRS == 19900);
    CHECK(MIRTALUGHE_MOST_STEPS == 20300);
    static const uint8_t no_pieces[] = {0};
    CHECK(mirtalughe_read(no_pieces, 1, list, MIRTALUGHE_LIST_ROOM).number == MIRTALUGHE_DONE);
    CHECK(mirtalughe_read(no_pieces, 1, list, MIRTALUGHE_LIST_ROOM - 1).number == MIRTALUGHE_ROOM);

    size_t most = every_two_cross(MIRTALUGHE_MOST_PIECES), room = MIRTALUGHE_PAIRS_ROOM(MIRTALUGHE_MOST_PIECES);
    CHECK(most == MIRTALUGHE_LIST_ROOM);
    CHECK(mirtalughe_all_pairs(list, most, pairs, room).count == MIRTALUGHE_MOST_PAIRS);
    CHECK(mirtalughe_plain_order(list, most, pairs, room).count == MIRTALUGHE_MOST_PAIRS);
    mirtalughe_swept swept = mirtalughe_sweep(list, most, UINT32_MAX, pairs, room);
    CHECK(swept.pairs == MIRTALUGHE_MOST_PAIRS && swept.steps == MIRTALUGHE_MOST_STEPS && swept.ended);
    CHECK(swept.examined <= (uint64_t)2 * (MIRTALUGHE_MOST_PIECES - 1) * MIRTALUGHE_MOST_STEPS);
    CHECK(!mirtalughe_sweep(list, most, MIRTALUGHE_MOST_STEPS - 1, pairs, room).ended);
    swept = mirtalughe_full_sweep(list, most, MIRTALUGHE_MOST_STEPS, pairs, room);
    CHECK(swept.pairs == MIRTALUGHE_MOST_PAIRS && swept.steps == MIRTALUGHE_MOST_STEPS && swept.ended);
    CHECK(!mirtalughe_full_sweep(list, most, MIRTALUGHE_MOST_STEPS - 1, pairs, room).ended);
    CHECK(mirtalughe_sweep(list, most, UINT32_MAX, pairs, room - 1).number == MIRTALUGHE_ROOM);
    CHECK(mirtalughe_all_pairs(list, most, pairs, room - 1).number == MIRTALUGHE_ROOM);
    static uint8_t longest[MIRTALUGHE_LONGEST_FILE];
    CHECK(mirtalughe_write(list, most, longest, sizeof longest).count == MIRTALUGHE_LONGEST_FILE);
    CHECK(mirtalughe_read(longest, sizeof longest, list, MIRTALUGHE_LIST_ROOM).count == MIRTALUGHE_MOST_PIECES);
    CHECK(mirtalughe_read(longest, sizeof longest - 1, list, MIRTALUGHE_LIST_ROOM).number == MIRTALUGHE_FILE_ENDS);
    list[1] = -MIRTALUGHE_LIMIT - 1;
    CHECK(mirtalughe_all_pairs(list, most, pairs, room).number == MIRTALUGHE_COORDINATE);
    size_t beyond = every_two_cross(MIRTALUGHE_MOST_PIECES + 1);
    CHECK(mirtalughe_all_pairs(list, beyond, pairs, sizeof pairs).number == MIRTALUGHE_COUNT);
    CHECK(MIRTALUGHE_PAIRS_ROOM(0) == 0 && MIRTALUGHE_PAIRS_ROOM((size_t)0) == 0 && MIRTALUGHE_PAIRS_ROOM(1) == 0);
}

static void version(void) {
    char told[32];
    snprintf(told, sizeof told, "%d.%d.%d", MIRTALUGHE_VERSION_MAJOR, MIRTALUGHE_VERSION_MINOR, MIRTALUGHE_VERSION_PATCH);
    CHECK(strcmp(told, MIRTALUGHE_VERSION) == 0);
}

static void null(void) {
    CHECK(mirtalughe_read(NULL, 0, list, MIRTALUGHE_LIST_ROOM).number == MIRTALUGHE_FILE_ENDS);
    CHECK(mirtalughe_read(NULL, 0, NULL, 0).number == MIRTALUGHE_ROOM);
    CHECK(mirtalughe_fold(1, 1, 1, NULL, 0).number == MIRTALUGHE_ROOM);
    CHECK(mirtalughe_meeting(NULL, 0).number == MIRTALUGHE_LIST_LENGTH);
    CHECK(mirtalughe_place(NULL, 0).number == MIRTALUGHE_LIST_LENGTH);
    CHECK(mirtalughe_region(NULL, 0, 0, 0).number == MIRTALUGHE_OUTLINE);
    CHECK(mirtalughe_all_pairs(NULL, 0, NULL, 0).number == MIRTALUGHE_DONE);
    CHECK(mirtalughe_all_pairs(crossing, MIRTALUGHE_PIECE_NUMBERS, NULL, 0).number == MIRTALUGHE_DONE);
    CHECK(mirtalughe_plain_order(NULL, 0, NULL, 0).number == MIRTALUGHE_DONE);
    CHECK(mirtalughe_sweep(NULL, 0, 0, NULL, 0).ended);
    CHECK(mirtalughe_full_sweep(NULL, 0, 0, NULL, 0).ended);
    CHECK(mirtalughe_check(NULL, 0, NULL, 0).says == MIRTALUGHE_ACCEPTED);
    CHECK(mirtalughe_open_empty(NULL, 0).number == MIRTALUGHE_ROOM);
    CHECK(mirtalughe_open_add(NULL, 0, 3, 0, 0, 1, 1).number == MIRTALUGHE_ROOM);
    CHECK(mirtalughe_open_drop(NULL, 0, 0).number == MIRTALUGHE_ROOM);
    CHECK(mirtalughe_open_used(NULL, 0).number == MIRTALUGHE_ROOM);
    CHECK(mirtalughe_open_pairs(NULL, 0, NULL, 0).number == MIRTALUGHE_ROOM);
    CHECK(mirtalughe_sweep_batch(NULL, 0, NULL, 0, NULL, 0, NULL, 0).number == MIRTALUGHE_DONE);
    CHECK(mirtalughe_sweep(crossing, MIRTALUGHE_PIECE_NUMBERS, UINT32_MAX, NULL, 0).steps == 2);
}

int main(void) {
    answers_of_read();
    answers_of_write();
    answers_of_meeting();
    answers_of_place();
    answers_of_region();
    answers_of_half_line();
    answers_of_all_pairs();
    answers_of_plain_order();
    answers_of_sweep();
    answers_of_sweep_batch();
    answers_of_check();
    answers_of_fold();
    answers_of_open();
    numbers();
    sizes();
    version();
    null();
    printf("fields: %d checks, %d wrong\n", checks, wrong);
    return wrong != 0;
}
