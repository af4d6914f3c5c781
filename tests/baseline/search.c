/* The search of a graph: by its mode, and by whether it has unknowns. */
#include "baseline.h"

void baseline_search(uint32_t order, const uint32_t edges[32], const uint32_t unknowns[32],
                     uint32_t starts, uint32_t mode, uint32_t budget, struct found *found)
{
    uint32_t non_edges[32], blocks[32], any_unknowns = 0;
    for (uint32_t end = order; end > 0;) {
        uint32_t start = end - 1;
        while (!(starts >> start & 1))
            start--;
        const uint32_t block = (uint32_t)((UINT64_C(1) << end) - (UINT64_C(1) << start));
        for (uint32_t v = start; v < end; v++) {
            non_edges[v] = ~(edges[v] | unknowns[v]);
            blocks[v] = block;
            any_unknowns |= unknowns[v];
        }
        end = start;
    }
    baseline_searching *search = mode == BY_ROWS
        ? (any_unknowns ? baseline_half_drawn_by_rows : baseline_drawn_by_rows)
        : (any_unknowns ? baseline_half_drawn_by_columns : baseline_drawn_by_columns);
    search(order, edges, unknowns, non_edges, blocks, budget, found);
}
