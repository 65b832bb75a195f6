/* The proved pit solver for C: link with libpitshell.so, or with libpitshell.a.
 *
 * Each function tests whatever it needs, and answers 0 or the number of a refusal (docs/FORMATS.md). On a refusal no output array
 * changes, and single outputs are set: found->worth_high, found->worth_low and *count to 0, *yes to false, the place to that of the
 * refusal, or to 0 if it has none. A function needs no thread, keeps nothing between calls, and may be called by several threads at
 * the same time. What no proof can see is owed by the caller:
 *
 * - each pointer is not NULL, not even where its length is 0, and stands before as many elements as its length says;
 * - what is written to (marks, found, ..) overlaps with nothing else that is passed;
 * - no other thread writes to the arrays while a call runs;
 * - malloc, realloc and free are one allocator, which aligns to 16 bytes; no call comes from a signal handler, nor from the
 *   forked child of a process with threads.
 */
#ifndef PITSHELL_H
#define PITSHELL_H

#include <stdbool.h>
#include <stddef.h>
#include <stdint.h>

#ifdef __cplusplus
extern "C" {
#endif

enum pitshell_refusal {
    PITSHELL_DONE = 0,
    PITSHELL_NO_MEMORY = 1,
    PITSHELL_UNKNOWN_NUMBER = 3,      /* numbers[place] is above 2 */
    PITSHELL_OVER_LIMIT = 4,          /* more than 4,194,304 blocks or 67,108,864 pairs; an amount above 10^18; a factor above 100,000, or more
                                         than 1,000 factors */
    PITSHELL_ROWS_OUT_OF_PLACE = 7,   /* starts: not 0, ever rising, up to the number of needs, one more than blocks */
    PITSHELL_OUT_OF_RANGE = 8,        /* needs[place] is no block */
    PITSHELL_NEEDS_ITSELF = 9,        /* needs[place] lies in its own row */
    PITSHELL_TWICE = 10,              /* the row names needs[place] before */
    PITSHELL_CYCLE = 14,              /* pitshell_cycle names its blocks */
    PITSHELL_NEGATIVE = 15,           /* a revenue or a cost of block `place` is negative */
    PITSHELL_COUNTS_DIFFER = 17,      /* an array has not the length that another asks for */
    PITSHELL_FACTORS_NOT_RISING = 19,
    PITSHELL_FIXED_CLASH = 21         /* the barred block `place` must be dug */
};

/* The worth of the pit in millionths is worth_high * 2^64 + worth_low: with __int128, ((__int128)worth_high << 64) + worth_low. */
struct pitshell_found {
    int64_t worth_high;
    uint64_t worth_low;
    uint32_t place; /* of a refusal; otherwise 0 */
};

/* The ultimate pit of a mine in arrays: block u is worth values[u] millionths and needs the blocks needs[k] for each k from
 * starts[u] up to, and without, starts[u + 1] (compressed sparse rows). numbers[u] is 1 where block u is forced in, 2 where it is
 * barred, else 0; with a length of 0 nothing is fixed. Of the best sets it is the smallest, or with greatest the largest.
 * Where the answer is 0, marks[u] is 1 for each block of the pit and 0 for each other. Else the marks are as they were. */
uint32_t pitshell_solve(const int64_t *values, size_t values_len, const uint32_t *starts, size_t starts_len, const uint32_t *needs,
                        size_t needs_len, const uint8_t *numbers, size_t numbers_len, bool greatest, uint8_t *marks,
                        size_t marks_len, struct pitshell_found *found);

/* The nested pits of a deposit in arrays: block u yields revenues[u] and costs costs[u] millionths, each from 0 to 10^18, and needs blocks
 * as above. At a factor f, in per mille, it is worth f * revenue - 1000 * cost billionths, and each factor's pit is the smallest of the
 * best sets; the factors rise. Where the answer is 0, firsts[u] is the number, from 0, of the first factor whose pit holds block u, or
 * factors_len where none does; and the pit of factor k is worth worths_high[k] * 2^64 + worths_low[k] billionths. Else all three are
 * as they were, and place tells where what is refused lies. */
uint32_t pitshell_shells(const int64_t *revenues, size_t revenues_len, const int64_t *costs, size_t costs_len, const uint32_t *starts,
                         size_t starts_len, const uint32_t *needs, size_t needs_len, const uint32_t *factors, size_t factors_len,
                         uint32_t *firsts, size_t firsts_len, int64_t *worths_high, size_t worths_high_len, uint64_t *worths_low,
                         size_t worths_low_len, uint32_t *place);

/* The pit of a mine in arrays as pitshell_solve finds the smallest, with the flow that shows it: on the pair of the need at place k flow
 * flow_high[k] * 2^64 + flow_low[k] millionths. The blocks of each row of needs rise (else PITSHELL_ROWS_OUT_OF_PLACE). Where the answer
 * is not 0, marks and flow are as they were. */
uint32_t pitshell_certificate(const int64_t *values, size_t values_len, const uint32_t *starts, size_t starts_len, const uint32_t *needs,
                              size_t needs_len, uint8_t *marks, size_t marks_len, int64_t *flow_high, size_t flow_high_len,
                              uint64_t *flow_low, size_t flow_low_len, struct pitshell_found *found);

/* Whether a flow shows that the marked blocks are the pit, whoever made it: where the answer is 0, *yes says so. Marks are 0 or 1 (else
 * PITSHELL_UNKNOWN_NUMBER), amounts from 0 to 10^30 (else PITSHELL_NEGATIVE or PITSHELL_OVER_LIMIT, with *place the need's). */
uint32_t pitshell_check(const int64_t *values, size_t values_len, const uint32_t *starts, size_t starts_len, const uint32_t *needs,
                        size_t needs_len, const uint8_t *marks, size_t marks_len, const int64_t *flow_high, size_t flow_high_len,
                        const uint64_t *flow_low, size_t flow_low_len, bool *yes, uint32_t *place);

/* The cycle for which the calls above refuse rows of so many blocks: where the answer is 0, *count is how many blocks it has, each of
 * which needs the next, and the last the first, and cycle begins with them, as far as there is room; *count is 0 where there is none,
 * and cycle is as it was. */
uint32_t pitshell_cycle(size_t blocks, const uint32_t *starts, size_t starts_len, const uint32_t *needs, size_t needs_len, uint32_t *cycle,
                        size_t cycle_len, size_t *count, uint32_t *place);

#ifdef __cplusplus
}
#endif

#endif
