/* The search by rows, through beginnings in dictionary order.
 *
 * A walk keeps no values. An unknown entry that was met at an earlier pair counts as what
 * it was driven to there: 1 if it was met as an image, 0 if it was met as the pair itself.
 * So a counts as 1 where it is an edge, or is unknown and its pair is the image of an
 * earlier one; b counts as 0 where it is a non-edge, or is unknown and its pair comes
 * earlier. Functions that are told whether the graph is drawn, without unknowns, are
 * compiled once for each case. */
#include <string.h>

#include "baseline.h"

/* ---- Row 1 ---- */

/*
 * For each place k after this first vertex, the vertices that decide the pair (1, k):
 * they win where a counts as 1, and lose where it doesn't. Here an unknown a doesn't.
 */
ALWAYS_INLINE void set_stops(bool drawn, uint32_t order, uint32_t first_edges, uint32_t first,
                             uint32_t zeros, uint32_t unknowns, uint32_t stops[32])
{
    for (uint32_t k = 1; k < order; k++) {
        const uint32_t itself = first == 0 ? bit(k) : first == k;
        const uint32_t earlier = first == 0 ? bit(k) - 1 : first < k;
        const uint32_t counted = drawn ? zeros : zeros | (unknowns & earlier);
        stops[k] = first_edges >> k & 1 ? counted : ~(counted | itself);
    }
}

/* ---- The other rows ---- */

/* What a walk comes to: it goes on, it is lost, or it is won at a pair, which is
 * row * 32 + column. */
enum { ON = 0, LOST = 1 };

/* Row i pair by pair, to the first pair that decides: the columns where a counts as 1, and
 * the vertices for which b counts as 0. */
ALWAYS_INLINE uint32_t row_walk(uint32_t order, uint32_t i, uint32_t ones, uint32_t zeros,
                                const uint32_t *restrict vertices)
{
    const uint32_t x = vertices[i];
    uint32_t one_bits = ones >> i;
    for (uint32_t j = i + 1; j < order; j++) {
        one_bits >>= 1;
        const uint32_t y = vertices[j];
        if (__builtin_expect((zeros >> y ^ one_bits) & 1, 1))
            continue;
        if (one_bits & 1)
            return i << 5 | j;
        if (!same_pair(x, y, i, j))
            return LOST;
    }
    return ON;
}

/* The same where vertex i is at place i, and its row has unknowns. */
ALWAYS_INLINE uint32_t fixed_row_walk(uint32_t order, uint32_t i, uint32_t edges,
                                      uint32_t unknowns, const uint32_t *restrict vertices,
                                      const uint32_t *restrict places)
{
    const uint32_t zeros = ~(edges | unknowns);
    for (uint32_t j = i + 1; j < order; j++) {
        const uint32_t y = vertices[j];
        if (y == j)
            continue;
        const uint32_t one = (edges >> j | (unknowns >> j & (places[j] < j))) & 1;
        const uint32_t zero = (zeros >> y | (unknowns >> y & (y < j))) & 1;
        if (one == zero)
            return one ? i << 5 | j : LOST;
    }
    return ON;
}

/* The same where row i has unknowns, or that of its vertex. Earlier are the vertices at
 * the places before i. */
ALWAYS_INLINE uint32_t unsure_row_walk(uint32_t order, uint32_t i, uint32_t earlier,
                                       const uint32_t *restrict edges,
                                       const uint32_t *restrict unknowns,
                                       const uint32_t *restrict non_edges,
                                       const uint32_t *restrict vertices,
                                       const uint32_t *restrict places)
{
    const uint32_t x = vertices[i], place = places[i];
    if (x == i)
        return fixed_row_walk(order, i, edges[i], unknowns[i], vertices, places);
    /* The columns j where (i, j) is the image of an earlier pair, and the vertices y for
     * which {x, y} comes earlier. */
    const uint32_t sources = place < i ? UINT32_MAX : earlier | (uint32_t)(place < x) << x;
    const uint32_t images = x < i ? UINT32_MAX : (bit(i) - 1) | (uint32_t)(x < place) << i;
    return row_walk(order, i, edges[i] | (unknowns[i] & sources),
                    non_edges[x] | (unknowns[x] & images), vertices);
}

/* Whether row i is alike all along: no edge after place i and no later vertex a mark,
 * or each has one. Then it goes on. */
ALWAYS_INLINE bool is_alike(uint32_t order, uint32_t i, uint32_t row_edges, uint32_t non_edges,
                            uint32_t later)
{
    const uint32_t after = row_edges >> i >> 1;
    const uint32_t marked = later & ~non_edges;
    if (after == 0)
        return marked == 0;
    return marked == later && after == bit(order - 1 - i) - 1;
}

/* Rows 3 and up: one that is alike and has no unknown there is passed at once. */
ALWAYS_INLINE uint32_t later_rows(bool drawn, uint32_t order, const uint32_t *restrict edges,
                                  const uint32_t *restrict unknowns,
                                  const uint32_t *restrict non_edges,
                                  const uint32_t *restrict vertices,
                                  const uint32_t *restrict places)
{
    uint32_t earlier = bit(vertices[0]) | bit(vertices[1]);
    uint32_t later = UINT32_MAX >> (32 - order) ^ earlier;
    for (uint32_t i = 2; i + 1 < order; i++) {
        const uint32_t x = vertices[i];
        uint32_t end = ON;
        later ^= bit(x);
        if (!drawn && (unknowns[i] >> i >> 1 | (unknowns[x] & later)))
            end = unsure_row_walk(order, i, earlier, edges, unknowns, non_edges, vertices, places);
        else if (!is_alike(order, i, edges[i], non_edges[x], later))
            end = row_walk(order, i, edges[i], non_edges[x], vertices);
        if (end != ON)
            return end;
        earlier |= bit(x);
    }
    return ON;
}

/* Kept out of the search's own loop, which is faster without them. */
NEVER_INLINE uint32_t later_drawn_rows(uint32_t order, const uint32_t *edges,
                                       const uint32_t *non_edges, const uint32_t *vertices)
{
    return later_rows(true, order, edges, NULL, non_edges, vertices, NULL);
}

NEVER_INLINE uint32_t later_half_drawn_rows(uint32_t order, const uint32_t *edges,
                                            const uint32_t *unknowns, const uint32_t *non_edges,
                                            const uint32_t *vertices, const uint32_t *places)
{
    return later_rows(false, order, edges, unknowns, non_edges, vertices, places);
}

/* Rows 2 and up. Most walks end in row 2. */
ALWAYS_INLINE uint32_t walk(bool drawn, uint32_t order, const uint32_t *restrict edges,
                            const uint32_t *restrict unknowns,
                            const uint32_t *restrict non_edges, const uint32_t *restrict vertices,
                            const uint32_t *restrict places)
{
    if (order < 3)
        return ON;
    const uint32_t x = vertices[1];
    const uint32_t end = !drawn && unknowns[1] | unknowns[x]
        ? unsure_row_walk(order, 1, bit(vertices[0]), edges, unknowns, non_edges, vertices, places)
        : row_walk(order, 1, edges[1], non_edges[x], vertices);
    if (__builtin_expect(end == ON, 0))
        return drawn ? later_drawn_rows(order, edges, non_edges, vertices)
            : later_half_drawn_rows(order, edges, unknowns, non_edges, vertices, places);
    return end;
}

/* ---- The search ---- */

ALWAYS_INLINE void search(bool drawn, uint32_t order, const uint32_t *restrict edges,
                          const uint32_t *restrict unknowns, const uint32_t *restrict non_edges,
                          const uint32_t *restrict blocks, uint32_t budget,
                          struct found *restrict found)
{
    uint32_t untried[32], vertices[32], places[32], stops[32];
    const uint32_t last = order - 1;
    const uint32_t first_edges = edges[0];
    uint32_t ones = first_edges;  /* the places k where a counts as 1 at the pair (1, k) */
    uint32_t unsure = 0;          /* those where that depends on the vertices in use */
    uint32_t steps = 0, used = 0, place = 0;
    uint32_t left = blocks[0];    /* the vertices still to be tried at this place */
    uint32_t row = 0, column = 0;
    stops[0] = 0;
    for (;;) {
        if (left == 0) {
            if (place == 0) {
                found->ending = NONE;
                break;
            }
            place--;
            used ^= bit(vertices[place]);
            left = untried[place];
            continue;
        }
        if (steps == budget) {
            found->ending = CUT;
            break;
        }
        steps++;
        const uint32_t vertex = (uint32_t)__builtin_ctz(left);
        left &= left - 1;
        vertices[place] = vertex;
        if (!drawn)
            places[vertex] = place;
        if (stops[place] >> vertex & 1) {
            if (ones >> place & 1) {
                /* Won in row 1: the lowest unused vertices fill the places after it. */
                row = 0;
                column = place;
                used |= bit(vertex);
                while (++place < order) {
                    vertices[place] = (uint32_t)__builtin_ctz(blocks[place] & ~used);
                    used |= bit(vertices[place]);
                }
                found->ending = SMALLER;
                break;
            }
        } else if (place < last) {
            if (place == 0) {
                set_stops(drawn, order, first_edges, vertex, non_edges[vertex], unknowns[vertex],
                          stops);
                if (!drawn) {
                    ones = first_edges;
                    unsure = vertex == 0 ? unknowns[0] : unknowns[0] & bit(vertex);
                }
            }
            untried[place] = left;
            used |= bit(vertex);
            place++;
            left = blocks[place] & ~used;
            if (!drawn && unsure >> place & 1) {
                /* An unknown a counts as 1 once that vertex is in use which would make the
                 * pair its own image. Then those that would lose go on, and the others win. */
                const uint32_t itself = vertices[0] == 0 ? place : 0;
                const uint32_t turned = (used >> itself ^ ones >> place) & 1;
                ones ^= turned << place;
                stops[place] ^= -turned;
            }
        } else {
            const uint32_t end = walk(drawn, order, edges, unknowns, non_edges, vertices, places);
            if (end > LOST) {
                row = end >> 5;
                column = end & 31;
                found->ending = SMALLER;
                break;
            }
        }
    }
    found->steps = steps;
    found->row = row;
    found->column = column;
    if (found->ending == SMALLER)
        memcpy(found->vertices, vertices, order * sizeof *vertices);
}

__attribute__((aligned(64)))
void baseline_drawn_by_rows(uint32_t order, const uint32_t *edges, const uint32_t *unknowns,
                            const uint32_t *non_edges, const uint32_t *blocks, uint32_t budget,
                            struct found *found)
{
    search(true, order, edges, unknowns, non_edges, blocks, budget, found);
}

__attribute__((aligned(64)))
void baseline_half_drawn_by_rows(uint32_t order, const uint32_t *edges, const uint32_t *unknowns,
                                 const uint32_t *non_edges, const uint32_t *blocks,
                                 uint32_t budget, struct found *found)
{
    search(false, order, edges, unknowns, non_edges, blocks, budget, found);
}
