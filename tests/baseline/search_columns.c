/* The search by columns, through beginnings in dictionary order. A beginning differs from
 * its shorter ones by its last column, so a step walks that column.
 *
 * A walk keeps no values. An unknown entry that was met at an earlier pair counts as what
 * it was driven to there: 1 if it was met as an image, 0 if it was met as the pair itself.
 * Functions that are told whether the graph is drawn, without unknowns, are compiled once
 * for each case. */
#include <string.h>

#include "baseline.h"

/* What the walk along a column comes to: it goes on, it is lost, or it is won at a pair,
 * which is column * 32 + row. */
enum { ON = 0, LOST = 1 };

/* Whether column k is alike all along: a counts as 1 nowhere and b as 0 everywhere, or the
 * other way round. Then it goes on. */
ALWAYS_INLINE bool is_alike(uint32_t k, uint32_t used, uint32_t ones, uint32_t zeros)
{
    const uint32_t here = ones & below(k), there = zeros & used;
    return here == 0 ? there == used : there == 0 && here == below(k);
}

/* Column k with vertex v at its place, from one row to before another, pair by pair, to the
 * first pair that decides: the rows where a counts as 1, and the vertices for which b counts
 * as 0. */
ALWAYS_INLINE uint32_t rows_walk(bool drawn, uint32_t k, uint32_t v, uint32_t from, uint32_t to,
                                 uint32_t ones, uint32_t zeros, const uint32_t *restrict vertices)
{
    uint32_t one_bits = ones >> from;
    for (uint32_t i = from; i < to; i++, one_bits >>= 1) {
        const uint32_t y = vertices[i];
        if ((zeros >> y ^ one_bits) & 1)
            continue;
        if (one_bits & 1)
            return k << 5 | i;
        if (drawn || !same_pair(y, v, i, k))
            return LOST;
    }
    return ON;
}

/* The whole column. Most are decided in the first rows; one that is not is often alike. In
 * use are the vertices at the places before k. */
ALWAYS_INLINE uint32_t column_walk(bool drawn, uint32_t k, uint32_t v, uint32_t used,
                                   uint32_t ones, uint32_t zeros,
                                   const uint32_t *restrict vertices)
{
    enum { FIRST = 4 };
    if (k <= FIRST)
        return rows_walk(drawn, k, v, 0, k, ones, zeros, vertices);
    const uint32_t end = rows_walk(drawn, k, v, 0, FIRST, ones, zeros, vertices);
    if (end != ON || is_alike(k, used, ones, zeros))
        return end;
    return rows_walk(drawn, k, v, FIRST, k, ones, zeros, vertices);
}

/* The same where vertex k is at place k, and its row has unknowns. */
ALWAYS_INLINE uint32_t fixed_column_walk(uint32_t k, uint32_t used, uint32_t edges,
                                         uint32_t unknowns, const uint32_t *restrict vertices,
                                         const uint32_t *restrict places)
{
    const uint32_t zeros = ~(edges | unknowns);
    for (uint32_t i = 0; i < k; i++) {
        const uint32_t y = vertices[i];
        if (y == i)
            continue;
        const uint32_t was_image = used >> i & (places[i] < i);
        const uint32_t one = (edges >> i | (unknowns >> i & was_image)) & 1;
        const uint32_t zero = (zeros >> y | (unknowns >> y & (y < i))) & 1;
        if (one == zero)
            return one ? k << 5 | i : LOST;
    }
    return ON;
}

/* The same where row k has unknowns, or that of its vertex. */
ALWAYS_INLINE uint32_t unsure_column_walk(uint32_t k, uint32_t v, uint32_t used,
                                          const uint32_t *restrict edges,
                                          const uint32_t *restrict unknowns,
                                          const uint32_t *restrict non_edges,
                                          const uint32_t *restrict vertices,
                                          const uint32_t *restrict places)
{
    if (v == k)
        return fixed_column_walk(k, used, edges[k], unknowns[k], vertices, places);
    /* The rows i where (i, k) is the image of an earlier pair, and the vertices y for which
     * {v, y} comes earlier. */
    uint32_t sources = 0, images = v < k ? below(k) : 0;
    if (used >> k & 1) {
        sources = used | (uint32_t)(places[k] < v) << v;
        images |= (uint32_t)(v < places[k]) << k;
    }
    return column_walk(false, k, v, used, edges[k] | (unknowns[k] & sources),
                       non_edges[v] | (unknowns[v] & images), vertices);
}

ALWAYS_INLINE void search(bool drawn, uint32_t order, const uint32_t *restrict edges,
                          const uint32_t *restrict unknowns, const uint32_t *restrict non_edges,
                          const uint32_t *restrict blocks, uint32_t budget,
                          struct found *restrict found)
{
    uint32_t untried[32], vertices[32], places[32];
    const uint32_t last = order - 1;
    uint32_t steps = 0, used = 0, place = 0;
    uint32_t left = blocks[0];    /* the vertices still to be tried at this place */
    for (;;) {
        if (left == 0) {
            if (place == 0) {
                found->ending = NONE;
                break;
            }
            place--;
            used ^= bit(vertices[place]);
            left = untried[place];
            continue;
        }
        if (steps == budget) {
            found->ending = CUT;
            break;
        }
        steps++;
        const uint32_t vertex = (uint32_t)__builtin_ctz(left);
        left &= left - 1;
        vertices[place] = vertex;
        if (!drawn)
            places[vertex] = place;
        const uint32_t end = !drawn && unknowns[place] | unknowns[vertex]
            ? unsure_column_walk(place, vertex, used, edges, unknowns, non_edges, vertices, places)
            : column_walk(true, place, vertex, used, edges[place], non_edges[vertex], vertices);
        if (end == LOST)
            continue;
        if (end > LOST) {
            found->row = end & 31;
            found->column = end >> 5;
            /* The lowest unused vertices fill the places after it. */
            used |= bit(vertex);
            while (++place < order) {
                vertices[place] = (uint32_t)__builtin_ctz(blocks[place] & ~used);
                used |= bit(vertices[place]);
            }
            found->ending = SMALLER;
            memcpy(found->vertices, vertices, order * sizeof *vertices);
            break;
        }
        if (place < last) {
            untried[place] = left;
            used |= bit(vertex);
            place++;
            left = blocks[place] & ~used;
        }
    }
    found->steps = steps;
}

__attribute__((aligned(64)))
void baseline_drawn_by_columns(uint32_t order, const uint32_t *edges, const uint32_t *unknowns,
                               const uint32_t *non_edges, const uint32_t *blocks,
                               uint32_t budget, struct found *found)
{
    search(true, order, edges, unknowns, non_edges, blocks, budget, found);
}

__attribute__((aligned(64)))
void baseline_half_drawn_by_columns(uint32_t order, const uint32_t *edges,
                                    const uint32_t *unknowns, const uint32_t *non_edges,
                                    const uint32_t *blocks, uint32_t budget, struct found *found)
{
    search(false, order, edges, unknowns, non_edges, blocks, budget, found);
}
