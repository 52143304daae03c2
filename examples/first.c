/* Two pieces, from 0 0 to 4 4 and from 0 4 to 4 0, each with both ends: which pair meets, and where. */
#include <stdio.h>
#include "mirtalughe.h"

int main(void) {
    int32_t list[] = {3, 0, 0, 4, 4, 3, 0, 4, 4, 0};
    uint8_t pairs[2];
    mirtalughe_swept swept = mirtalughe_full_sweep(list, 10, UINT32_MAX, pairs, sizeof pairs);
    mirtalughe_placed placed = mirtalughe_place(list, 10);
    if (swept.number != 0) return printf("refused %d, place %zu\n", swept.number, swept.place);
    printf("pair %d %d at %g %g\n", pairs[0], pairs[1], placed.x1, placed.y1);
}
