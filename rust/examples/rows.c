/* Prints the slots and rows of the page on standard input, lowered from the id given, or from 0. See README.md for how it is built. */
#include "hunposeto.h"
#include <stdio.h>
#include <stdlib.h>

static uint8_t text[32769], records[HUNPOSETO_RECORD * HUNPOSETO_MOST_RECORDS], rows[HUNPOSETO_ROW * HUNPOSETO_MOST_RECORDS];
static uint32_t ids[6 * HUNPOSETO_MOST_RECORDS];
static double values[6 * HUNPOSETO_MOST_RECORDS];

int main(int count, char **given) {
    uint32_t first = count > 1 ? (uint32_t)strtoul(given[1], NULL, 10) : 0;
    uint64_t out[HUNPOSETO_PARTS], code;
    size_t len = fread(text, 1, sizeof text, stdin);
    code = hunposeto_read_whole(text, len, records, sizeof records, out);
    if (code == 0)
        code = hunposeto_lower(text, len, records, (size_t)(out[0] + out[1]) * HUNPOSETO_RECORD, first, ids, sizeof ids / sizeof *ids,
                               values, sizeof values / sizeof *values, rows, sizeof rows, out);
    if (code != 0) {
        printf("refused %d %d\n", (int)code, (int)out[0]);
        return 1;
    }
    size_t slots = 2 * out[0] + 3 * out[1] + 6 * out[2];
    for (size_t i = 0; i < slots; i++)
        printf("slot %u %.17g\n", (unsigned)ids[i], values[i]);
    for (size_t r = 0; r < out[5]; r++)
        printf("row %d, %d ids\n", rows[r * HUNPOSETO_ROW + 1], rows[r * HUNPOSETO_ROW + 2]);
    return 0;
}
