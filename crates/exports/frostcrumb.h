/* Frostcrumb's functions for C. Link with target/staticlib/libexports.a, which tools/archive makes (x86-64 Linux).
 *
 * A slice is a pointer and then its number of elements. What is lent to be changed must overlap nothing else that the call is lent,
 * and a pointer is never null, even with length 0. Nothing else is asked: any bytes, any cells and any lengths are answered.
 *
 * The tables of a placement are three rows of cells, which only these functions need to understand: heads, entries and orders.
 *
 * Every function lays numbers over the front of `answer` and returns how many they are: first the case, counted from 0, and then
 * its values. The last case is always the refusal, with the number (1 to 8) and the line of docs/REFUSALS.md. With fewer than
 * FROSTCRUMB_ANSWER cells for the answer the function returns 0 and changes nothing. A refusal changes no other lent cell. */
#ifndef FROSTCRUMB_H
#define FROSTCRUMB_H

#include <stddef.h>
#include <stdint.h>

#ifdef __cplusplus
extern "C" {
#endif

/* The full sizes, in elements. A lent part that is shorter is refusal 1; of a longer one only the front is used. */
#define FROSTCRUMB_TEXT 65536    /* bytes of a text that is written; a text that is read has at most as many */
#define FROSTCRUMB_HEADS 707
#define FROSTCRUMB_ENTRIES 8192
#define FROSTCRUMB_ORDERS 3073
#define FROSTCRUMB_TABLE 256     /* a depot for each trainee, 0 for none */
#define FROSTCRUMB_CELLS 16384   /* four cells to a strike: trainee, depot, reason (1 to 4), witness */
#define FROSTCRUMB_ANSWER 8

/* Reads a placement text into the tables: 0 | 1, number, line. */
size_t frostcrumb_read_placement(
    const uint8_t *text, size_t text_len,
    uint16_t *heads, size_t heads_len,
    uint16_t *entries, size_t entries_len,
    uint16_t *orders, size_t orders_len,
    uint64_t *answer, size_t answer_len);

/* Writes the text of the placement that the tables hold over the front of `out`: 0, number of bytes | 1, number, line. */
size_t frostcrumb_write_placement(
    const uint16_t *heads, size_t heads_len,
    const uint16_t *entries, size_t entries_len,
    const uint16_t *orders, size_t orders_len,
    uint8_t *out, size_t out_len,
    uint64_t *answer, size_t answer_len);

/* Whether a trainee's list was received: 0 received | 1 not received | 2 no such trainee | 3, number, line. */
size_t frostcrumb_trainee_receipt(
    const uint16_t *heads, size_t heads_len,
    const uint16_t *entries, size_t entries_len,
    const uint16_t *orders, size_t orders_len,
    size_t trainee,
    uint64_t *answer, size_t answer_len);

/* Tests a table of n trainees: 0 stable | 1, trainee whose depot is not mutual | 2, depot over its posts |
 * 3, trainee, depot of the blocking pair | 4, number, line. */
size_t frostcrumb_test_table(
    const uint16_t *heads, size_t heads_len,
    const uint16_t *entries, size_t entries_len,
    const uint16_t *orders, size_t orders_len,
    uint16_t n,
    const uint16_t *table, size_t table_len,
    uint64_t *answer, size_t answer_len);

/* Solves a placement. The strikes go over the front of `cells`, and where a table is ruled, it goes over the front of `table`:
 * 0, n, number of strikes, 0 (placed) | 0, n, number of strikes, kind (1 or 2), trainee, depot (none) | 1, number, line. */
size_t frostcrumb_solve(
    const uint16_t *heads, size_t heads_len,
    const uint16_t *entries, size_t entries_len,
    const uint16_t *orders, size_t orders_len,
    uint16_t *table, size_t table_len,
    uint16_t *cells, size_t cells_len,
    uint64_t *answer, size_t answer_len);

#ifdef __cplusplus
}
#endif

#endif
