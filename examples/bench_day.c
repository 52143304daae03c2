/* A day at the bench: pieces come and go on an open chart, and each keeps its number until it is dropped. Speed along, in
   rpm, and frequency up, in Hz. */
#include <stdio.h>
#include "mirtalughe.h"

static int32_t chart[MIRTALUGHE_OPEN_NUMBERS];
static uint8_t pairs[MIRTALUGHE_PAIRS_ROOM(MIRTALUGHE_OPEN_PLACES)];

static size_t add(const char *name, int32_t x1, int32_t y1, int32_t x2, int32_t y2) {
    mirtalughe_changed changed = mirtalughe_open_add(chart, MIRTALUGHE_OPEN_NUMBERS, 3, x1, y1, x2, y2);
    if (changed.number != MIRTALUGHE_DONE)
        printf("%s: refused %d\n", name, changed.number);
    else
        printf("%s is piece %zu\n", name, changed.piece);
    return changed.piece;
}

static void drop(size_t piece) {
    mirtalughe_changed changed = mirtalughe_open_drop(chart, MIRTALUGHE_OPEN_NUMBERS, piece);
    if (changed.number != MIRTALUGHE_DONE)
        printf("drop %zu: refused %d\n", piece, changed.number);
    else
        printf("drop %zu\n", piece);
}

static void list(void) {
    mirtalughe_answer listed = mirtalughe_open_pairs(chart, MIRTALUGHE_OPEN_NUMBERS, pairs, sizeof pairs);
    printf("%zu pieces", mirtalughe_open_used(chart, MIRTALUGHE_OPEN_NUMBERS).count);
    for (size_t k = 0; k < listed.count; k++) printf(", %d meets %d", pairs[2 * k], pairs[2 * k + 1]);
    puts("");
}

int main(void) {
    if (mirtalughe_open_empty(chart, MIRTALUGHE_OPEN_NUMBERS).number != MIRTALUGHE_DONE) return 1;
    add("blade pass", 600, 70, 3000, 350);
    size_t ring = add("outer ring", 600, 110, 3000, 110);
    add("twice the blade pass", 600, 140, 3000, 700);
    add("cage", 600, 300, 3000, 300);
    list();
    drop(ring); /* the bearing is changed */
    list();
    add("new outer ring", 600, 90, 3000, 450);
    drop(7);
    add("no length", 600, 90, 600, 90);
    list();
    return 0;
}
