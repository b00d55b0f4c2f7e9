/* Reads a placement on standard input, solves it and prints each trainee's depot.
 *
 *     bash tools/archive
 *     cc -o example crates/exports/example.c target/staticlib/libexports.a
 *     ./example < samples/whole-case.placement
 */
#include <stdio.h>

#include "frostcrumb.h"

static uint8_t text[FROSTCRUMB_TEXT + 1];
static uint16_t heads[FROSTCRUMB_HEADS], entries[FROSTCRUMB_ENTRIES], orders[FROSTCRUMB_ORDERS];
static uint16_t table[FROSTCRUMB_TABLE], cells[FROSTCRUMB_CELLS];
static uint64_t answer[FROSTCRUMB_ANSWER];

static int refused(void)
{
    printf("refused\t%u\t%u\n", (unsigned)answer[1], (unsigned)answer[2]);
    return 1;
}

int main(void)
{
    size_t length = fread(text, 1, sizeof text, stdin);

    frostcrumb_read_placement(text, length, heads, FROSTCRUMB_HEADS, entries, FROSTCRUMB_ENTRIES, orders, FROSTCRUMB_ORDERS,
        answer, FROSTCRUMB_ANSWER);
    if (answer[0] == 1)
        return refused();

    frostcrumb_solve(heads, FROSTCRUMB_HEADS, entries, FROSTCRUMB_ENTRIES, orders, FROSTCRUMB_ORDERS,
        table, FROSTCRUMB_TABLE, cells, FROSTCRUMB_CELLS, answer, FROSTCRUMB_ANSWER);
    if (answer[0] == 1)
        return refused();

    if (answer[3] != 0) {
        printf("no table: kind %u, trainee %u, depot %u\n", (unsigned)answer[3], (unsigned)answer[4], (unsigned)answer[5]);
        return 0;
    }
    for (size_t i = 0; i < answer[1]; i++)
        printf("trainee %zu: depot %u\n", i + 1, (unsigned)table[i]);
    return 0;
}
