/* The work of include/cafruzek.h once more in plain C: the bar for the proved
 * library's speed. The four functions answer as those of the header do, bit for
 * bit, and write the same. Inside, places, vertices and rows count from 0. */
#ifndef BASELINE_H
#define BASELINE_H

#include <stdbool.h>
#include <stddef.h>
#include <stdint.h>

uint64_t baseline_judge_record(const uint8_t *record, size_t record_len, uint32_t mode,
                               uint32_t budget, int32_t *literals, size_t literals_len,
                               uint8_t arrangement[32]);

uint64_t baseline_judge_rows(uint32_t order, const uint32_t edges[32], const uint32_t unknowns[32],
                             uint32_t starts, uint32_t mode, uint32_t budget,
                             int32_t *literals, size_t literals_len, uint8_t arrangement[32]);

uint64_t baseline_record_size(const uint8_t *record, size_t record_len);

uint64_t baseline_write_record(uint32_t order, const uint32_t edges[32],
                               const uint32_t unknowns[32], uint32_t starts,
                               uint8_t *out, size_t out_len);

/* ---- Between the files ---- */

#define ALWAYS_INLINE static inline __attribute__((always_inline))
/* Aligned, so that the time of a loop doesn't depend on what stands before it. */
#define NEVER_INLINE static __attribute__((noinline, aligned(64)))

ALWAYS_INLINE uint32_t bit(uint32_t v)
{
    return UINT32_C(1) << v;
}

/* The mask of the vertices below a bound of at most 32. */
ALWAYS_INLINE uint32_t below(uint32_t bound)
{
    return (uint32_t)((UINT64_C(1) << bound) - 1);
}

ALWAYS_INLINE bool same_pair(uint32_t x, uint32_t y, uint32_t i, uint32_t j)
{
    return (x == i && y == j) || (x == j && y == i);
}

/* The modes: pairs are compared by rows, or by columns. */
enum { BY_ROWS = 1, BY_COLUMNS = 2 };

struct graph {
    uint32_t order, starts;
    uint32_t edges[32], unknowns[32];
};

/* Whether these rows make a graph. */
bool baseline_is_graph(uint32_t order, const uint32_t edges[32], const uint32_t unknowns[32],
                       uint32_t starts);

/* The columns of these rows as rows. */
void baseline_turn_over(const uint32_t rows[restrict 32], uint32_t columns[restrict 32]);

/* Reads a record: answers 0 and sets the graph, or answers the refusal. */
uint64_t baseline_read(const uint8_t *record, size_t record_len, struct graph *graph);

enum { NONE = 0, SMALLER = 1, CUT = 2 };

/* How a search ended. Where it found one: the first certificate, and its winning pair. */
struct found {
    uint32_t ending, steps;
    uint32_t row, column;
    uint32_t vertices[32];
};

/* Searches a graph. */
void baseline_search(uint32_t order, const uint32_t edges[32], const uint32_t unknowns[32],
                     uint32_t starts, uint32_t mode, uint32_t budget, struct found *found);

/* The search of each mode, for graphs without unknowns and for others: with the rows of
 * non-edges, and the block of each vertex. */
typedef void baseline_searching(uint32_t order, const uint32_t *edges, const uint32_t *unknowns,
                                const uint32_t *non_edges, const uint32_t *blocks,
                                uint32_t budget, struct found *found);
baseline_searching baseline_drawn_by_rows, baseline_half_drawn_by_rows;
baseline_searching baseline_drawn_by_columns, baseline_half_drawn_by_columns;

/* Writes the clause of what was found, by rising pair number, and tells how many literals
 * it has. */
size_t baseline_write_clause(uint32_t order, const uint32_t edges[32],
                             const uint32_t unknowns[32], uint32_t mode,
                             const struct found *found, int32_t *literals);

/* The answer that refuses. */
static inline uint64_t refusal(uint64_t number, size_t place)
{
    return (128 + number) << 56 | (place < UINT32_MAX ? place : UINT32_MAX);
}

#endif
