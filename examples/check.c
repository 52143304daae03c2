/* check CHART PAIRS: holds a supplier's list, two bytes a pair, to a chart file, and prints `accepted`, `fault ENTRY FAULT`,
   `missing A B` or `refused NUMBER PLACE`. `tools/chart.py tell` makes a sentence of it. */
#include <stdio.h>
#include <stdlib.h>
#include "mirtalughe.h"

/* The bytes of a file, and how many they are. */
static uint8_t *bytes_of(const char *name, size_t *size) {
    FILE *file = fopen(name, "rb");
    uint8_t *bytes = NULL;
    size_t room = 0;
    *size = 0;
    while (file != NULL) {
        if (*size == room) {
            room = 2 * room + 4096;
            bytes = (uint8_t *)realloc(bytes, room);
            if (bytes == NULL) break;
        }
        size_t more = fread(bytes + *size, 1, room - *size, file);
        *size += more;
        if (more == 0 && !ferror(file) && fclose(file) == 0) return bytes;
        if (more == 0) break;
    }
    fprintf(stderr, "check: %s cannot be read\n", name);
    exit(2);
}

int main(int count, char **words) {
    if (count != 3) {
        fprintf(stderr, "usage: check CHART PAIRS\n");
        return 2;
    }
    size_t size, named;
    uint8_t *chart = bytes_of(words[1], &size), *pairs = bytes_of(words[2], &named);
    static int32_t list[MIRTALUGHE_LIST_ROOM];
    mirtalughe_answer read = mirtalughe_read(chart, size, list, MIRTALUGHE_LIST_ROOM);
    mirtalughe_checked checked = mirtalughe_check(list, MIRTALUGHE_PIECE_NUMBERS * read.count, pairs, named);
    if (read.number != MIRTALUGHE_DONE)
        printf("refused %d %zu\n", read.number, read.place);
    else if (checked.number != MIRTALUGHE_DONE)
        printf("refused %d %zu\n", checked.number, checked.place);
    else if (checked.says == MIRTALUGHE_ACCEPTED)
        printf("accepted\n");
    else
        printf("%s %zu %zu\n", checked.says == MIRTALUGHE_FAULT ? "fault" : "missing", checked.first, checked.second);
    free(chart);
    free(pairs);
    return 0;
}
