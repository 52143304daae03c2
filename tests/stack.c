/* Prints how many bytes of stack each call takes on the largest chart and its file, and fails above 128 KiB, of
   mirtalughe_full_sweep above 32. A call runs on a stack that was painted beforehand; what it changed counts, and the
   caller's few words with it. */
#include <stdio.h>
#include <string.h>
#include <ucontext.h>

#include "mirtalughe.h"

enum { ROOM = 1 << 18, MOST = 128 << 10, MOST_FULL_SWEEP = 32 << 10, PAINT = 0xA5 };

static _Alignas(64) unsigned char stack[ROOM];
static ucontext_t host, guest;
static int32_t list[MIRTALUGHE_LIST_ROOM];
static uint8_t file[MIRTALUGHE_LONGEST_FILE], again[MIRTALUGHE_LONGEST_FILE];
static uint8_t pairs[MIRTALUGHE_PAIRS_ROOM(MIRTALUGHE_MOST_PIECES)];
static int wrong;

static void nothing(void) {}

static void compare_points(void) {
    wrong |= mirtalughe_compare_points(INT64_MAX, 0, UINT64_MAX, INT64_MAX - 1, 0, UINT64_MAX - 2) != 1;
}

static void orient(void) { wrong |= mirtalughe_orient(0, 0, 4, 0, 4, 4) != 1; }

static void read(void) { wrong |= mirtalughe_read(file, sizeof file, list, MIRTALUGHE_LIST_ROOM).count != MIRTALUGHE_MOST_PIECES; }

static void write(void) {
    wrong |= mirtalughe_write(list, MIRTALUGHE_LIST_ROOM, again, sizeof again).count != sizeof again;
}

static void meeting(void) { wrong |= mirtalughe_meeting(list, MIRTALUGHE_TWO_PIECES).meets != MIRTALUGHE_CROSSING; }

static void place(void) { wrong |= mirtalughe_place(list, MIRTALUGHE_TWO_PIECES).meets != MIRTALUGHE_AT; }

static void region(void) {
    static const int32_t outline[] = {0, 0, 4, 0, 4, 4, 0, 4};
    wrong |= mirtalughe_region(outline, 8, 1, 1).region != MIRTALUGHE_INSIDE;
}

static void half_line(void) { wrong |= mirtalughe_half_line(3, 2, -1, 2, 1, 0, 0, 1, 0).meets != MIRTALUGHE_CROSSING; }

static void all_pairs(void) {
    wrong |= mirtalughe_all_pairs(list, MIRTALUGHE_LIST_ROOM, pairs, sizeof pairs).count != MIRTALUGHE_MOST_PAIRS;
}

static void plain_order(void) {
    wrong |= mirtalughe_plain_order(list, MIRTALUGHE_LIST_ROOM, pairs, sizeof pairs).count != MIRTALUGHE_MOST_PAIRS;
}

static void sweep(void) {
    wrong |= mirtalughe_sweep(list, MIRTALUGHE_LIST_ROOM, UINT32_MAX, pairs, sizeof pairs).pairs != MIRTALUGHE_MOST_PAIRS;
}

static void full_sweep(void) {
    wrong |= mirtalughe_full_sweep(list, MIRTALUGHE_LIST_ROOM, UINT32_MAX, pairs, sizeof pairs).pairs != MIRTALUGHE_MOST_PAIRS;
}

static void sweep_batch(void) {
    static const size_t lengths[] = {MIRTALUGHE_LIST_ROOM};
    static uint64_t results[MIRTALUGHE_RESULT_NUMBERS];
    wrong |= mirtalughe_sweep_batch(list, MIRTALUGHE_LIST_ROOM, lengths, 1, pairs, sizeof pairs, results, MIRTALUGHE_RESULT_NUMBERS).count != 1;
    wrong |= results[2] != MIRTALUGHE_MOST_PAIRS;
}

static void check(void) {
    wrong |= mirtalughe_check(list, MIRTALUGHE_LIST_ROOM, pairs, sizeof pairs).says != MIRTALUGHE_ACCEPTED;
}

static void fold(void) {
    static int32_t line[MIRTALUGHE_FOLD_ROOM];
    wrong |= mirtalughe_fold(1, 1, MIRTALUGHE_MOST_FOLDED, line, MIRTALUGHE_FOLD_ROOM).count != MIRTALUGHE_MOST_FOLDED;
}

static int32_t chart[MIRTALUGHE_OPEN_NUMBERS];
static uint8_t open_list[MIRTALUGHE_PAIRS_ROOM(MIRTALUGHE_OPEN_PLACES)];

static void open_empty(void) { wrong |= mirtalughe_open_empty(chart, MIRTALUGHE_OPEN_NUMBERS).number != MIRTALUGHE_DONE; }

static void open_add(void) {
    for (int32_t i = 0; i < MIRTALUGHE_OPEN_PLACES; i++) {
        mirtalughe_changed added =
            mirtalughe_open_add(chart, MIRTALUGHE_OPEN_NUMBERS, 3, -MIRTALUGHE_LIMIT, 150 * i, MIRTALUGHE_LIMIT, -150 * i);
        wrong |= added.piece != (size_t)i;
    }
}

static void open_used(void) { wrong |= mirtalughe_open_used(chart, MIRTALUGHE_OPEN_NUMBERS).count != MIRTALUGHE_OPEN_PLACES; }

static void open_pairs(void) {
    mirtalughe_answer listed = mirtalughe_open_pairs(chart, MIRTALUGHE_OPEN_NUMBERS, open_list, sizeof open_list);
    wrong |= listed.count != sizeof open_list / 2;
}

static void open_drop(void) { wrong |= mirtalughe_open_drop(chart, MIRTALUGHE_OPEN_NUMBERS, 199).piece != 199; }

static size_t taken(void (*call)(void)) {
    memset(stack, PAINT, ROOM);
    getcontext(&guest);
    guest.uc_stack.ss_sp = stack;
    guest.uc_stack.ss_size = ROOM;
    guest.uc_link = &host;
    makecontext(&guest, call, 0);
    swapcontext(&host, &guest);
    size_t kept = 0;
    while (kept < ROOM && stack[kept] == PAINT) kept++;
    return ROOM - kept;
}

static uint8_t *put_groups(uint8_t *at, uint32_t v) {
    for (; v >= 0x80; v >>= 7) *at++ = (v & 0x7f) | 0x80;
    *at++ = (uint8_t)v;
    return at;
}

static uint8_t *put(uint8_t *at, int32_t v) { return put_groups(at, v < 0 ? -2 * v - 1 : 2 * v); }

/* A file of the most pieces, of which every two cross at points of their own; every coordinate takes three groups. */
static void largest(void) {
    uint8_t *at = put_groups(file, MIRTALUGHE_MOST_PIECES);
    for (int32_t i = 0; i < MIRTALUGHE_MOST_PIECES; i++) {
        *at++ = 3;
        at = put(put(put(put(at, -MIRTALUGHE_LIMIT), 8200 + 120 * i), MIRTALUGHE_LIMIT), 32700 - i * (i + 1) / 2);
    }
    wrong |= at != file + sizeof file;
}

int main(void) {
    static const struct {
        const char *name;
        void (*call)(void);
    } calls[] = {
        {"mirtalughe_read", read},       {"mirtalughe_orient", orient}, {"mirtalughe_compare_points", compare_points},
        {"mirtalughe_meeting", meeting}, {"mirtalughe_place", place},   {"mirtalughe_all_pairs", all_pairs},
        {"mirtalughe_sweep", sweep},     {"mirtalughe_write", write},   {"mirtalughe_full_sweep", full_sweep},
        {"mirtalughe_fold", fold},       {"mirtalughe_check", check},   {"mirtalughe_plain_order", plain_order},
        {"mirtalughe_sweep_batch", sweep_batch},
        {"mirtalughe_region", region},   {"mirtalughe_half_line", half_line},
        {"mirtalughe_open_empty", open_empty}, {"mirtalughe_open_add", open_add}, {"mirtalughe_open_used", open_used},
        {"mirtalughe_open_pairs", open_pairs}, {"mirtalughe_open_drop", open_drop},
    };
    largest();
    size_t none = taken(nothing);
    int above = 0;
    for (size_t i = 0; i < sizeof calls / sizeof *calls; i++) {
        size_t bytes = taken(calls[i].call) - none, most = calls[i].call == full_sweep ? MOST_FULL_SWEEP : MOST;
        above |= bytes > most;
        printf("stack: %s takes %zu bytes%s\n", calls[i].name, bytes, bytes > most ? ", TOO MANY" : "");
    }
    if (wrong) puts("stack: a call did not answer as it should");
    return wrong || above;
}
