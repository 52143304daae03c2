/* One sweep, for valgrind to count: reads n and five numbers a piece, and sweeps them by the call that it is told. */
#include <inttypes.h>
#include <stdio.h>
#include <string.h>

#include "mirtalughe.h"

int main(int count, char **words) {
    static int32_t list[MIRTALUGHE_LIST_ROOM];
    static uint8_t pairs[MIRTALUGHE_PAIRS_ROOM(MIRTALUGHE_MOST_PIECES)];
    size_t n;
    if (scanf("%zu", &n) != 1 || n > MIRTALUGHE_MOST_PIECES) return 1;
    for (size_t i = 0; i < MIRTALUGHE_PIECE_NUMBERS * n; i++)
        if (scanf("%" SCNd32, &list[i]) != 1) return 1;
    size_t length = MIRTALUGHE_PIECE_NUMBERS * n;
    if (count != 2) return 1;
    if (strcmp(words[1], "mirtalughe_full_sweep") == 0)
        return mirtalughe_full_sweep(list, length, UINT32_MAX, pairs, sizeof pairs).number;
    return mirtalughe_sweep(list, length, UINT32_MAX, pairs, sizeof pairs).number;
}
