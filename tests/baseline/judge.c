/* Judging: the graph and the room, the search, and the clause of what it found. */
#include "baseline.h"

/* Judges a graph. */
static uint64_t judge(uint32_t order, const uint32_t *edges, const uint32_t *unknowns,
                      uint32_t starts, uint32_t mode, uint32_t budget,
                      int32_t *literals, size_t literals_len, uint8_t *arrangement)
{
    if (literals_len < order * (order - 1) / 2)
        return refusal(5, 0);
    struct found found;
    baseline_search(order, edges, unknowns, starts, mode, budget, &found);
    const uint64_t answer = (uint64_t)found.ending << 56 | found.steps;
    if (found.ending != SMALLER)
        return answer;
    const uint64_t count = baseline_write_clause(order, edges, unknowns, mode, &found, literals);
    for (uint32_t i = 0; i < 32; i++)
        arrangement[i] = i < order ? (uint8_t)(found.vertices[i] + 1) : 0;
    return answer | count << 44 | (uint64_t)(found.column + 1) << 38
        | (uint64_t)(found.row + 1) << 32;
}

static bool is_mode(uint32_t mode)
{
    return mode == BY_ROWS || mode == BY_COLUMNS;
}

uint64_t baseline_judge_rows(uint32_t order, const uint32_t edges[32], const uint32_t unknowns[32],
                             uint32_t starts, uint32_t mode, uint32_t budget,
                             int32_t *literals, size_t literals_len, uint8_t arrangement[32])
{
    if (!is_mode(mode))
        return refusal(16, 0);
    if (!baseline_is_graph(order, edges, unknowns, starts))
        return refusal(8, 0);
    return judge(order, edges, unknowns, starts, mode, budget, literals, literals_len, arrangement);
}

/* A graph that was read needs no check. */
uint64_t baseline_judge_record(const uint8_t *record, size_t record_len, uint32_t mode,
                               uint32_t budget, int32_t *literals, size_t literals_len,
                               uint8_t arrangement[32])
{
    struct graph graph;
    const uint64_t refused = baseline_read(record, record_len, &graph);
    if (refused)
        return refused;
    if (!is_mode(mode))
        return refusal(16, 0);
    return judge(graph.order, graph.edges, graph.unknowns, graph.starts, mode, budget, literals,
                 literals_len, arrangement);
}
