/* Which rows make a graph. */
#include "baseline.h"

/* One stage of turning rows over: the highest bit of a row's number changes places with
 * the bit of this weight of a column's, and the other bits of the row's move up. Five
 * stages move them back. */
static inline void stage(const uint32_t in[restrict 32], uint32_t out[restrict 32],
                         uint32_t weight, uint32_t mask)
{
    for (uint32_t i = 0; i < 16; i++) {
        const uint32_t a = in[i], b = in[i + 16];
        out[2 * i] = (a & mask) | (b & mask) << weight;
        out[2 * i + 1] = (a >> weight & mask) | (b & ~mask);
    }
}

void baseline_turn_over(const uint32_t rows[restrict 32], uint32_t columns[restrict 32])
{
    uint32_t other[32];
    stage(rows, columns, 16, 0x0000ffff);
    stage(columns, other, 8, 0x00ff00ff);
    stage(other, columns, 4, 0x0f0f0f0f);
    stage(columns, other, 2, 0x33333333);
    stage(other, columns, 1, 0x55555555);
}

static bool is_symmetric(const uint32_t rows[32])
{
    uint32_t columns[32], differ = 0;
    baseline_turn_over(rows, columns);
    for (uint32_t i = 0; i < 32; i++)
        differ |= columns[i] ^ rows[i];
    return differ == 0;
}

bool baseline_is_graph(uint32_t order, const uint32_t edges[32], const uint32_t unknowns[32],
                       uint32_t starts)
{
    if (order < 1 || order > 32)
        return false;
    const uint32_t inside = UINT32_MAX >> (32 - order);
    if (!(starts & 1) || starts & ~inside)
        return false;
    uint32_t wrong = 0;
    for (uint32_t i = 0; i < 32; i++) {
        const uint32_t allowed = i < order ? inside & ~(UINT32_C(1) << i) : 0;
        wrong |= ((edges[i] | unknowns[i]) & ~allowed) | (edges[i] & unknowns[i]);
    }
    return wrong == 0 && is_symmetric(edges) && is_symmetric(unknowns);
}
