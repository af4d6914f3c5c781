/* Records: bits, the most significant of a byte first. */
#include <string.h>

#include "baseline.h"

static uint32_t pair_count(uint32_t order) { return order * (order - 1) / 2; }

static size_t byte_count(uint32_t order)
{
    return (6 + (order - 1) + 2 * pair_count(order) + 7) / 8;
}

/* ---- Reading ---- */

/* The bits that were fetched and not yet taken are the lowest of those held. */
struct reader {
    const uint8_t *next;
    uint64_t held;
    uint32_t count;
};

/* The next bits, at most 32. */
static inline uint32_t take(struct reader *reader, uint32_t width)
{
    while (reader->count < width) {
        reader->held = reader->held << 8 | *reader->next++;
        reader->count += 8;
    }
    reader->count -= width;
    return (uint32_t)(reader->held >> reader->count & ((UINT64_C(1) << width) - 1));
}

/* Opens a record that the bytes hold whole and takes its order: 0, or the refusal. */
static uint64_t open_record(const uint8_t *record, size_t record_len, struct reader *reader,
                            uint32_t *order)
{
    if (record_len < 1)
        return refusal(1, record_len);
    *reader = (struct reader){record, 0, 0};
    *order = take(reader, 6);
    if (*order < 1 || *order > 32)
        return refusal(2, *order);
    if (record_len < byte_count(*order))
        return refusal(1, record_len);
    return 0;
}

/* The bits after the last entry must be zeros: 0, or the refusal. */
static uint64_t close_record(const struct reader *reader)
{
    return reader->held & ((UINT64_C(1) << reader->count) - 1) ? refusal(4, 0) : 0;
}

/* Reads the entries of row i after its diagonal, 16 at a time. An entry comes in at the
 * top of the masks and moves down as others follow. */
static inline void read_row(struct reader *reader, struct graph *graph, uint32_t i)
{
    const uint32_t top = UINT32_C(1) << 31, order = graph->order;
    uint32_t edges = 0, unknowns = 0;
    for (uint32_t left = order - 1 - i; left > 0;) {
        const uint32_t most = left < 16 ? left : 16;
        uint32_t entries = take(reader, 2 * most) << (32 - 2 * most);
        left -= most;
        for (uint32_t k = 0; k < most; k++, entries <<= 2) {
            edges = edges >> 1 | (entries << 1 & top);
            unknowns = unknowns >> 1 | (entries & top);
        }
    }
    graph->edges[i] = edges >> (32 - order);
    graph->unknowns[i] = unknowns >> (32 - order);
}

/* Sets the lower half of the rows to what the upper one is. */
static void mirror(uint32_t rows[32])
{
    uint32_t columns[32];
    baseline_turn_over(rows, columns);
    for (uint32_t i = 0; i < 32; i++)
        rows[i] |= columns[i];
}

uint64_t baseline_read(const uint8_t *record, size_t record_len, struct graph *graph)
{
    struct reader reader;
    uint32_t order;
    const uint64_t refused = open_record(record, record_len, &reader, &order);
    if (refused)
        return refused;
    memset(graph, 0, sizeof *graph);
    graph->order = order;
    graph->starts = 1;
    for (uint32_t v = 1; v < order; v++)
        graph->starts |= take(&reader, 1) << v;
    uint32_t before = 0;  /* the pairs before this row */
    for (uint32_t i = 0; i + 1 < order; i++) {
        read_row(&reader, graph, i);
        const uint32_t both = graph->edges[i] & graph->unknowns[i];
        if (both)
            return refusal(3, before + (uint32_t)__builtin_ctz(both) - i);
        before += order - 1 - i;
    }
    mirror(graph->edges);
    mirror(graph->unknowns);
    return close_record(&reader);
}

/* Checks the entries 16 at a time. */
uint64_t baseline_record_size(const uint8_t *record, size_t record_len)
{
    struct reader reader;
    uint32_t order;
    uint64_t refused = open_record(record, record_len, &reader, &order);
    if (refused)
        return refused;
    take(&reader, order - 1);
    const uint32_t pairs = pair_count(order);
    for (uint32_t before = 0; before < pairs; before += 16) {
        const uint32_t most = pairs - before < 16 ? pairs - before : 16;
        const uint32_t entries = take(&reader, 2 * most) << (32 - 2 * most);
        const uint32_t both = entries & entries << 1 & 0xaaaaaaaa;
        if (both)
            return refusal(3, before + (uint32_t)__builtin_clz(both) / 2 + 1);
    }
    refused = close_record(&reader);
    return refused ? refused : byte_count(order);
}

/* ---- Writing ---- */

/* The bits that wait to be stored are the lowest of those held. */
struct writer {
    uint8_t *next;
    uint64_t held;
    uint32_t count;
};

/* Puts at most 32 bits, and stores the bytes that are full. */
static inline void put(struct writer *writer, uint32_t value, uint32_t width)
{
    writer->held = writer->held << width | value;
    writer->count += width;
    while (writer->count >= 8) {
        writer->count -= 8;
        *writer->next++ = (uint8_t)(writer->held >> writer->count);
    }
}

/* Writes so many entries of a row, 16 at a time, the lowest bits of the masks first. */
static inline void write_row(struct writer *writer, uint32_t edges, uint32_t unknowns,
                             uint32_t left)
{
    while (left > 0) {
        const uint32_t most = left < 16 ? left : 16;
        uint32_t entries = 0;
        for (uint32_t k = 0; k < most; k++) {
            entries = entries << 2 | (unknowns & 1) << 1 | (edges & 1);
            edges >>= 1;
            unknowns >>= 1;
        }
        put(writer, entries, 2 * most);
        left -= most;
    }
}

uint64_t baseline_write_record(uint32_t order, const uint32_t edges[32],
                               const uint32_t unknowns[32], uint32_t starts,
                               uint8_t *out, size_t out_len)
{
    if (!baseline_is_graph(order, edges, unknowns, starts))
        return refusal(8, 0);
    const size_t bytes = byte_count(order);
    if (out_len < bytes)
        return refusal(6, 0);
    struct writer writer = {out, 0, 0};
    put(&writer, order, 6);
    for (uint32_t v = 1; v < order; v++)
        put(&writer, starts >> v & 1, 1);
    for (uint32_t i = 0; i + 1 < order; i++)
        write_row(&writer, edges[i] >> i >> 1, unknowns[i] >> i >> 1, order - 1 - i);
    put(&writer, 0, -writer.count & 7);
    return bytes;
}
