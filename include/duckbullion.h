/*
 * Duckbullion: deterministic Rabin automata translated into deterministic parity automata, for C and C++.
 *
 * Every call takes any bytes, arrays, sizes and places, however malformed, and says what it made of them: a refusal is
 * a number. docs/RULES.md says in full what tables, records, rows, words, judges, refusals and listings are.
 * `rt lib` in crates/exported makes the archive crates/exported/out/libexported.a, for x86-64 Linux; it needs no library
 * but C's.
 *
 * What a caller must guarantee, since no call can check it:
 *   - A pointer with length L points to L elements of its type, aligned for it, that may be read, and written where the
 *     pointer is not const. L counts elements, not bytes.
 *   - An array that a call may write shares no element with any other array of the same call, and nobody else uses it
 *     during the call. Arrays that are only read may overlap each other.
 *   - An array of length 0 is neither read nor written. A NULL pointer with length 0 was tried for every array of every
 *     call and is taken as an empty array; the proofs speak of valid pointers only.
 *
 * What is known of a call, and how:
 *   - Proved, for all arguments: its result, and what each array holds afterwards, as said here.
 *   - By the language, which has no heap and no static variables: a call allocates no memory, has no state and keeps no
 *     pointer. Calls that write different arrays may run at the same time.
 *   - Measured only, with room added: a call takes less than 64 KiB of stack. A thread's stack was filled with a
 *     pattern, and it was read off how much of that was gone (docs/DECISIONS.md, "The stack of a call").
 */
#ifndef DUCKBULLION_H
#define DUCKBULLION_H

#include <stddef.h>
#include <stdbool.h>
#include <stdint.h>

#ifdef __cplusplus
extern "C" {
#endif

/*
 * A Rabin table is bytes. Four first: states n (1 to 64), letters m (1 to 16), pairs k (0 to 6), start state. Then n*m
 * target bytes, the cell of state q and letter a being number q*m + a, 255 for no transition. Then two bytes for each
 * cell: the prohibited byte and the required byte, bit i - 1 for pair i. Its length is exactly 4 + 3*n*m.
 *
 * A parity table has N rows (1 to 4,096) and m letters (1 to 16): a target (16 bits, 65,535 for no transition) and a
 * priority (a byte) for each row q and letter a, in cell q*m + a of two arrays. Row 0 is the start.
 *
 * A looped word is a lead-in of 0 to 65,535 letters and a loop of 1 to 65,535 that is repeated for ever; a letter is a
 * byte below m.
 */
enum {
    DUCKBULLION_MAX_STATES = 64,
    DUCKBULLION_MAX_LETTERS = 16,
    DUCKBULLION_MAX_PAIRS = 6,
    DUCKBULLION_NO_STATE = 255,  /* the target byte of a missing transition of a Rabin table */
    DUCKBULLION_MAX_ROWS = 4096, /* the largest capacity, and the most rows of a parity table */
    DUCKBULLION_NO_ROW = 65535,  /* the target of a missing transition of a parity table */
    DUCKBULLION_MAX_PIECE = 65535
};

/*
 * Refusals (docs/RULES.md, "Refusals"). Each is given when its condition is the first met, and otherwise not:
 *   of a Rabin table    fewer than 4 bytes (1), 2, the length (1 or 3), 4, 5 over all cells, 6 over all cells
 *   of lent arrays      the table's, then 7, then 8 (8 is given by duckbullion_translate_table and printed by
 *                       duckbullion_list_table; no other call counts rows)
 *   of a looped word    the table's (1 to 6 for a Rabin table, 11 for a parity table), then 10, then 9
 */
enum {
    DUCKBULLION_OK = 0,     /* no refusal */
    DUCKBULLION_SHORT = 1,  /* fewer than 4 bytes, or than the sizes demand */
    DUCKBULLION_SIZES = 2,  /* n, m or k out of range */
    DUCKBULLION_LONG = 3,   /* bytes left over */
    DUCKBULLION_START = 4,  /* start not below n */
    DUCKBULLION_TARGET = 5, /* a target neither below n nor 255 */
    DUCKBULLION_MARKS = 6,  /* a bit above pair k, or any bit on a missing transition */
    DUCKBULLION_ARRAYS = 7, /* the capacity out of range, or a lent array below its size */
    DUCKBULLION_FULL = 8,   /* more reachable rows than the capacity */
    DUCKBULLION_LETTER = 9, /* a byte of the word not below m */
    DUCKBULLION_LOOP = 10,  /* the loop empty, or either piece over 65,535 */
    DUCKBULLION_PARITY = 11 /* N not 1 to 4,096, m not 1 to 16, an array below N*m, or a target among the first N*m
                               neither below N nor 65,535 */
};

/* The kinds of an answer; the numbers are our own. */
enum {
    DUCKBULLION_ACCEPTS = 0, /* value 0 */
    DUCKBULLION_REJECTS = 1, /* value 0 */
    DUCKBULLION_STOPS = 2,   /* value: the letters read before the missing transition, that one not counted */
    DUCKBULLION_REFUSED = 3  /* value: the refusal's number */
};

/* A judge's answer to a looped word. */
typedef struct duckbullion_answer {
    uint32_t kind;
    uint32_t value;
} duckbullion_answer;

/* The translator's outcome: the refusal or 0, and the number of rows, 0 on a refusal. */
typedef struct duckbullion_translation {
    uint8_t number;
    size_t rows;
} duckbullion_translation;

/* The forecast of a table: the refusal or 0, and bounds of the table's translation, both 0 on a refusal. */
typedef struct duckbullion_forecast {
    uint8_t number;
    uint32_t rows;
    uint8_t pairs;
} duckbullion_forecast;

/* The pieces of a looped word. */
enum { DUCKBULLION_LEAD_IN = 0, DUCKBULLION_LOOPED = 1 };

/* A part of a piece: the piece, the letter of it with which the part begins, and how many letters the part has. */
typedef struct duckbullion_rest {
    size_t piece;
    size_t start;
    size_t length;
} duckbullion_rest;

/* The table's refusal, 1 to 6, or 0 where the table is well formed. */
uint8_t duckbullion_check_table(const uint8_t *table, size_t table_length);

/* The table's letters m: its second byte, well formed or not, and 0 where there is no second byte. */
uint8_t duckbullion_letters_of(const uint8_t *table, size_t table_length);

/*
 * Components. Two states share a component if they are equal or each reaches the other.
 * Result: the table's refusal; then 7 where out has fewer than n places; else 0.
 * On 0 the first n entries of out are, state by state, the smallest state of the state's component, and the entries
 * past them are untouched. On a refusal out holds what it held.
 */
uint8_t duckbullion_find_components(const uint8_t *table, size_t table_length,
                                    uint8_t *out, size_t out_length);

/*
 * Systems in an array, for tests and benchmarks. A system has n states and m letters, both below 65,535; cell q*m + a
 * of targets says where state q goes by letter a, and a target that is no state means that there is no transition.
 * Result: true where n and m are in range and targets has at least n*m entries, work 5*n and out n; else false, and out
 * holds what it held. On true the first n entries of out are, state by state, the smallest state of the state's
 * component, and the entries past them are untouched. The array work is scratch space: what it holds afterwards is left
 * open.
 */
bool duckbullion_find_components_of_system(size_t states, size_t letters,
                                           const uint16_t *targets, size_t targets_length,
                                           uint16_t *work, size_t work_length,
                                           uint16_t *out, size_t out_length);

/*
 * All states that the state `from` reaches, by a breadth-first search. Result: how many are reached, `from` included; 0
 * where m is above 256, from is no state, or sizes or arrays do not fit as above, and then nothing is written.
 * Afterwards numbers has for each state its place in the queue plus 1, or 0 where it is not reached; queue has for each
 * place the state, parents the place from which it was first met, an earlier one, and by the letter. Place 0 is `from`.
 * Entries of numbers past the states, and of the other arrays past the places, are untouched.
 */
size_t duckbullion_find_reached(size_t states, size_t letters,
                                const uint16_t *targets, size_t targets_length,
                                size_t from,
                                uint16_t *numbers, size_t numbers_length,
                                uint16_t *queue, size_t queue_length,
                                uint16_t *parents, size_t parents_length,
                                uint8_t *by, size_t by_length);

/*
 * A path to the state at a place, from what such a search has left in parents and by. Result: where its letters begin
 * in out; they go to the end of out, and the entries before them are untouched. It is such a path where place is below
 * the number of states reached and out has at least as many entries as place; else what is written is left open.
 */
size_t duckbullion_path_to(size_t place,
                           const uint16_t *parents, size_t parents_length,
                           const uint8_t *by, size_t by_length,
                           uint8_t *out, size_t out_length);

/*
 * Forecasts, from the table alone, the size of its translation. A pair counts in a component if a transition that stays
 * in it has the pair's required bit.
 * Result: number is the table's refusal, 1 to 6, or 0. On 0 rows is the sum, over the components reachable from the
 * start, of a component's states times the factorial of the pairs that count in it, 1 to 46,080; pairs is the most
 * pairs that count in any one of these components, 0 to 6. On a refusal both are 0.
 * On 0 the translation of the table has at most rows rows, and no priority above 2*pairs + 1. So
 * duckbullion_translate_table never refuses 8 with a capacity of at least rows. The bound need not be met: where rows
 * is above the largest capacity, the table may still be translated.
 */
duckbullion_forecast duckbullion_forecast_table(const uint8_t *table, size_t table_length);

/*
 * Translates a Rabin table into a parity table, by index appearance records. A row is a source state with a record, an
 * ordering of the pairs that count in its component; rows are numbered from 0 in order of discovery, rows taken by
 * number and letters rising within each. The capacity c is 1 to 4,096; the arrays have at least c*m targets, c*m
 * priorities, c source states and c record numbers, and may be longer.
 * Result: number is the table's refusal; then 7 for the capacity or an array; then 8 where more than c rows are
 * reachable; else 0. rows is the number of rows N on 0, and 0 on a refusal.
 * On 0: for each row q below N and each letter a, cell q*m + a of targets and priorities is the row that it leads to
 * and its priority, 65,535 and 0 for a missing transition; sources has the row's state, records its pair numbers read
 * as one decimal number, 0 if there are none. Rows N to c - 1 are 0 in all four arrays.
 * On 8: the first c rows of all four arrays (c*m cells, c entries) are 0.
 * On another number: all four arrays hold what they held. Entries past row c - 1 are never touched.
 * On 0, as long as nobody writes the arrays, duckbullion_judge_rabin on the table and duckbullion_judge_parity on N, m,
 * targets and priorities give the same answer to every looped word, the count of a stop and a refusal included.
 */
duckbullion_translation duckbullion_translate_table(const uint8_t *table, size_t table_length,
                                                    size_t capacity,
                                                    uint16_t *targets, size_t targets_length,
                                                    uint8_t *priorities, size_t priorities_length,
                                                    uint8_t *sources, size_t sources_length,
                                                    uint32_t *records, size_t records_length);

/*
 * Translates as duckbullion_translate_table does, with the same later contents of the four row arrays, and writes the
 * text of the outcome into out: on 0 the listing (docs/RULES.md, "Listing"), on a refusal N the line "refused N" with
 * its line feed. So out is written on a refusal too; the four row arrays follow the rule for refusals.
 * Result: the length of the whole text in bytes, whatever of it fits. What does not fit into out is dropped, bytes of
 * out past the text are untouched, and no NUL is added. With out_length 0 the call only gives the length.
 * The result is at most 10 + 26*c*m for capacity c and m letters, m counted as at most 16; the line of a refusal has
 * 10 bytes.
 */
size_t duckbullion_list_table(const uint8_t *table, size_t table_length,
                              size_t capacity,
                              uint16_t *targets, size_t targets_length,
                              uint8_t *priorities, size_t priorities_length,
                              uint8_t *sources, size_t sources_length,
                              uint32_t *records, size_t records_length,
                              uint8_t *out, size_t out_length);

/*
 * Judges. A run begins at the start, reads the lead-in, then the loop again and again. At a missing transition it
 * stops. A transition recurs if it is taken in repetitions without end.
 * Answer: refused with the table's refusal, then 10, then 9; else stops, with the letters read, exactly if the run
 * meets a missing transition; else accepts or rejects. Arrays are only read.
 */

/*
 * The answer of a Rabin table: it accepts if for some pair no recurring transition has its prohibited bit and at least
 * one has its required bit. The table's refusal is 1 to 6.
 */
duckbullion_answer duckbullion_judge_rabin(const uint8_t *table, size_t table_length,
                                           const uint8_t *lead, size_t lead_length,
                                           const uint8_t *looped, size_t looped_length);

/*
 * The answer of a parity table of rows rows and letters letters, from anyone: it accepts if the largest priority of the
 * recurring transitions is even. The arrays have at least rows*letters entries and may be longer; the table's refusal
 * is 11.
 */
duckbullion_answer duckbullion_judge_parity(size_t rows, size_t letters,
                                            const uint16_t *targets, size_t targets_length,
                                            const uint8_t *priorities, size_t priorities_length,
                                            const uint8_t *lead, size_t lead_length,
                                            const uint8_t *looped, size_t looped_length);

/*
 * The rest of a piece. Places count from 0 through the lead-in and then one loop; the part goes from the place to the
 * end of its piece. Refuses nothing.
 * Result: in the lead-in, piece 0 and start the place; in the loop, piece 1 and start the place less the lead-in's
 * length; past the last letter the empty end of the loop, piece 1, start looped_length and length 0. The part is
 * length letters, from lead + start or looped + start on.
 */
duckbullion_rest duckbullion_rest_of(const uint8_t *lead, size_t lead_length,
                                     const uint8_t *looped, size_t looped_length,
                                     size_t place);

#ifdef __cplusplus
}
#endif

#endif
