/*
 * Translates the table T of docs/RULES.md, prints the parity table, and judges the loop 0 1 on both. At the repository's root:
 *     (cd crates/exported && rt lib)
 *     mkdir -p target
 *     cc -std=c99 -Wall -Wextra -pedantic -O2 -I include examples/c/translate.c -L crates/exported/out -lexported -o target/translate
 */
#include <stdio.h>

#include "duckbullion.h"

enum { CAPACITY = 4, LETTERS = 2, CELLS = CAPACITY * LETTERS };

static int fail(const char *message, unsigned number)
{
    fprintf(stderr, "translate: %s (%u)\n", message, number);
    return 1;
}

int main(void)
{
    static const uint8_t table[] = {2, 2, 2, 0, 0, 1, 0, 1, 1, 2, 0, 0, 0, 1, 2, 0};
    static const uint8_t looped[] = {0, 1};
    const uint8_t *lead = looped; /* of length 0: nothing of it is read */
    uint16_t targets[CELLS];
    uint8_t priorities[CELLS];
    uint8_t sources[CAPACITY];
    uint32_t records[CAPACITY];

    uint8_t refused = duckbullion_check_table(table, sizeof table);
    if (refused != DUCKBULLION_OK)
        return fail("the table is refused", refused);

    duckbullion_translation made =
        duckbullion_translate_table(table, sizeof table, CAPACITY, targets, CELLS, priorities, CELLS,
                                    sources, CAPACITY, records, CAPACITY);
    if (made.number != DUCKBULLION_OK)
        return fail("the translation is refused", made.number);
    if (made.rows != 4)
        return fail("T has 4 rows", (unsigned)made.rows);

    printf("%u rows\n", (unsigned)made.rows);
    for (size_t q = 0; q < made.rows; q++)
        for (size_t a = 0; a < LETTERS; a++)
            printf("row %u, state %u, record %u, letter %u: target %u, priority %u\n", (unsigned)q, (unsigned)sources[q],
                   (unsigned)records[q], (unsigned)a, (unsigned)targets[q * LETTERS + a], (unsigned)priorities[q * LETTERS + a]);

    duckbullion_answer rabin = duckbullion_judge_rabin(table, sizeof table, lead, 0, looped, sizeof looped);
    duckbullion_answer parity =
        duckbullion_judge_parity(made.rows, LETTERS, targets, CELLS, priorities, CELLS, lead, 0, looped, sizeof looped);
    if (rabin.kind != DUCKBULLION_ACCEPTS)
        return fail("the Rabin table accepts the loop 0 1", (unsigned)rabin.kind);
    if (parity.kind != DUCKBULLION_ACCEPTS)
        return fail("the parity table accepts the loop 0 1", (unsigned)parity.kind);
    printf("both accept the loop 0 1\n");
    return 0;
}
