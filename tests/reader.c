/* Holds mirtalughe_read to a reader written from docs/CHART.md alone, on so many files from a seed, the same on every run:
   files of charts as they are, cut, longer and with bytes changed, and bytes of few values. The answer and every lent number
   must be equal, and what is read must be written by mirtalughe_write as it was. tests/linked runs it; by hand, longer and from another seed:

     target/linked/reader 10000000 7 */
#include <stdio.h>
#include <stdlib.h>
#include <string.h>

#include "mirtalughe.h"

enum { ROOM = MIRTALUGHE_LIST_ROOM, MOST_LENT = ROOM + 10, SPARE = 64, SIZE = MIRTALUGHE_LONGEST_FILE + SPARE };

static mirtalughe_answer refused(mirtalughe_refusal number, size_t place) {
    return (mirtalughe_answer){.number = number, .place = place, .count = 0};
}

/* A number in at most three groups, and the place after it; done, or its refusal. */
static mirtalughe_refusal number(const uint8_t *file, size_t size, size_t *at, int32_t *v) {
    size_t groups = 0;
    while (groups < 3 && *at + groups < size && file[*at + groups] & 0x80) groups++;
    if (groups == 3) return MIRTALUGHE_GROUPS;
    if (*at + groups >= size) return MIRTALUGHE_FILE_ENDS;
    if (groups > 0 && file[*at + groups] == 0) return MIRTALUGHE_GROUPS;
    *v = 0;
    for (size_t g = groups + 1; g-- > 0;) *v = *v << 7 | (file[*at + g] & 0x7f);
    *at += groups + 1;
    return MIRTALUGHE_DONE;
}

static mirtalughe_refusal coordinate(const uint8_t *file, size_t size, size_t *at, int32_t *v) {
    size_t next = *at;
    int32_t stored = 0;
    mirtalughe_refusal refusal = number(file, size, &next, &stored);
    if (refusal != MIRTALUGHE_DONE) return refusal;
    *v = stored & 1 ? -((stored + 1) >> 1) : stored >> 1;
    if (*v < -MIRTALUGHE_LIMIT || *v > MIRTALUGHE_LIMIT) return MIRTALUGHE_COORDINATE;
    *at = next;
    return MIRTALUGHE_DONE;
}

static mirtalughe_answer expected(const uint8_t *file, size_t size, int32_t *list, size_t lent) {
    int32_t read[ROOM];
    if (lent < ROOM) return refused(MIRTALUGHE_ROOM, 0);
    size_t at = 0;
    int32_t count = 0;
    mirtalughe_refusal refusal = number(file, size, &at, &count);
    if (refusal != MIRTALUGHE_DONE) return refused(refusal, 0);
    if (count > MIRTALUGHE_MOST_PIECES) return refused(MIRTALUGHE_COUNT, 0);
    for (int32_t p = 0; p < count; p++) {
        size_t start = at;
        int32_t *piece = &read[MIRTALUGHE_PIECE_NUMBERS * p];
        if (at == size) return refused(MIRTALUGHE_FILE_ENDS, at);
        if (file[at] > 3) return refused(MIRTALUGHE_KIND, at);
        piece[0] = file[at++];
        for (int c = 1; c < MIRTALUGHE_PIECE_NUMBERS; c++) {
            refusal = coordinate(file, size, &at, &piece[c]);
            if (refusal != MIRTALUGHE_DONE) return refused(refusal, at);
        }
        if (piece[1] == piece[3] && piece[2] == piece[4]) return refused(MIRTALUGHE_NO_LENGTH, start);
    }
    if (at < size) return refused(MIRTALUGHE_EXTRA_BYTES, at);
    memcpy(list, read, MIRTALUGHE_PIECE_NUMBERS * (size_t)count * sizeof *list);
    return (mirtalughe_answer){.number = MIRTALUGHE_DONE, .place = 0, .count = (size_t)count};
}

/* splitmix64: the same numbers everywhere from one seed */
static uint64_t state;

static uint32_t below(uint32_t most) {
    uint64_t z = state += 0x9E3779B97F4A7C15;
    z = (z ^ z >> 30) * 0xBF58476D1CE4E5B9;
    z = (z ^ z >> 27) * 0x94D049BB133111EB;
    return (uint32_t)((z ^ z >> 31) >> 32) % most;
}

static int32_t any_coordinate(void) {
    static const int32_t edges[] = {0, 1, 63, 64, 8191, 8192, MIRTALUGHE_LIMIT - 1, MIRTALUGHE_LIMIT};
    int32_t v = below(2) ? edges[below(8)] : (int32_t)below(MIRTALUGHE_LIMIT + 1);
    return below(2) ? v : -v;
}

static size_t put_groups(uint8_t *at, uint32_t v) {
    size_t size = 0;
    for (; v >= 0x80; v >>= 7) at[size++] = (v & 0x7f) | 0x80;
    at[size++] = (uint8_t)v;
    return size;
}

static size_t put(uint8_t *at, int32_t v) { return put_groups(at, v < 0 ? -2 * v - 1 : 2 * v); }

static size_t chart(uint8_t *file, uint32_t pieces) {
    size_t size = put_groups(file, pieces);
    for (uint32_t p = 0; p < pieces; p++) {
        file[size++] = (uint8_t)below(4);
        int32_t x = any_coordinate(), y = any_coordinate();
        size += put(file + size, x);
        size += put(file + size, y);
        size += put(file + size, below(200) ? any_coordinate() : x);
        size += put(file + size, below(200) ? any_coordinate() : y);
    }
    return size;
}

/* The file with a group more in its count, for the most part zero. */
static size_t longer_count(uint8_t *file, size_t size) {
    size_t groups = file[0] < 0x80 ? 1 : 2;
    memmove(file + groups + 1, file + groups, size - groups);
    file[groups - 1] |= 0x80;
    file[groups] = (uint8_t)(below(4) ? 0 : below(256));
    return size + 1;
}

/* A file: of a chart, and damaged in one of several ways; or bytes of few values. */
static size_t any_file(uint8_t *file) {
    static const uint8_t few[] = {0, 1, 2, 3, 4, 0x7f, 0x80, 0xff};
    if (below(4) == 0) {
        size_t size = below(24);
        for (size_t i = 0; i < size; i++) file[i] = i == 0 && below(4) ? (uint8_t)below(4) : few[below(8)];
        return size;
    }
    size_t size = chart(file, below(8) ? below(6) : below(MIRTALUGHE_MOST_PIECES + 1));
    switch (below(6)) {
    case 0: return below((uint32_t)size + 1);
    case 1: file[below((uint32_t)size)] = below(2) ? few[below(8)] : (uint8_t)below(256); break;
    case 2: file[0] = (uint8_t)(below(2) ? file[0] + 1u : below(256)); break;
    case 3: for (uint32_t more = below(SPARE); more > 0; more--) file[size++] = (uint8_t)below(256); break;
    case 4: return longer_count(file, size);
    }
    return size;
}

static bool written_again(const uint8_t *file, size_t size, const int32_t *list, size_t pieces) {
    static uint8_t again[MIRTALUGHE_LONGEST_FILE];
    mirtalughe_answer write = mirtalughe_write(list, MIRTALUGHE_PIECE_NUMBERS * pieces, again, sizeof again);
    return write.number == MIRTALUGHE_DONE && write.count == size && memcmp(file, again, size) == 0;
}

int main(int words, char **word) {
    static const size_t rooms[] = {ROOM, ROOM, ROOM, ROOM, ROOM, ROOM - 1, MOST_LENT, 0};
    static uint8_t file[SIZE];
    long files = words > 1 ? atol(word[1]) : 200000, told[MIRTALUGHE_LIST_LENGTH] = {0};
    state = words > 2 ? (uint64_t)atoll(word[2]) : 1;
    for (long i = 0; i < files; i++) {
        int32_t ours[MOST_LENT], theirs[MOST_LENT];
        for (int k = 0; k < MOST_LENT; k++) ours[k] = theirs[k] = -7 - k;
        size_t size = any_file(file), lent = rooms[below(8)];
        mirtalughe_answer a = expected(file, size, ours, lent), b = mirtalughe_read(file, size, theirs, lent);
        if (a.number != b.number || a.place != b.place || a.count != b.count || memcmp(ours, theirs, sizeof ours) != 0) {
            printf("reader: file %ld: %d at %zu, count %zu is due, and not %d at %zu, count %zu:", i, a.number, a.place, a.count,
                   b.number, b.place, b.count);
            for (size_t k = 0; k < size; k++) printf(" %02x", file[k]);
            puts("");
            return 1;
        }
        if (b.number == MIRTALUGHE_DONE && !written_again(file, size, theirs, b.count)) {
            printf("reader: file %ld is not written again as it was\n", i);
            return 1;
        }
        told[b.number]++;
    }
    printf("reader: %ld files, by number", files);
    for (int number = MIRTALUGHE_DONE; number < MIRTALUGHE_LIST_LENGTH; number++) {
        printf(" %ld", told[number]);
        if (told[number] == 0) return 1;
    }
    puts("");
}
