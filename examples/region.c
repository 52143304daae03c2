/* region: reads an outline and peaks from standard input, a line `corner X Y` or `peak X Y` each, what follows # left out, and
   prints for each peak `on`, `inside`, `outside` or `refused NUMBER PLACE`. `tools/chart.py region` draws them. */
#include <stdio.h>
#include <string.h>
#include "mirtalughe.h"

enum { MOST_CORNERS = 64, MOST_PEAKS = 1000 };

/* Two numbers more in a list, where it has room; they are counted all the same. */
static void put(int32_t *list, size_t room, size_t *count, long x, long y) {
    if (*count + 2 <= room) {
        list[*count] = (int32_t)x;
        list[*count + 1] = (int32_t)y;
    }
    *count += 2;
}

int main(void) {
    static int32_t outline[2 * MOST_CORNERS + 2], peaks[2 * MOST_PEAKS];
    size_t corners = 0, asked = 0;
    char line[200];
    while (fgets(line, sizeof line, stdin) != NULL) {
        long x, y;
        line[strcspn(line, "#")] = '\0';
        if (sscanf(line, " corner %ld %ld", &x, &y) == 2)
            put(outline, 2 * MOST_CORNERS + 2, &corners, x, y);
        else if (sscanf(line, " peak %ld %ld", &x, &y) == 2)
            put(peaks, 2 * MOST_PEAKS, &asked, x, y);
    }
    /* one corner more than there may be is refused by the call */
    if (corners > 2 * MOST_CORNERS + 2) corners = 2 * MOST_CORNERS + 2;
    for (size_t i = 0; i + 2 <= asked && i + 2 <= 2 * MOST_PEAKS; i += 2) {
        static const char *const said[] = {"none", "on", "inside", "outside"};
        mirtalughe_located located = mirtalughe_region(outline, corners, peaks[i], peaks[i + 1]);
        if (located.number != MIRTALUGHE_DONE)
            printf("refused %d %zu\n", located.number, located.place);
        else
            printf("%s\n", said[located.region]);
    }
    return 0;
}
