/* include/cafruzek.h, compiled as C and as C++: worked graphs through each of its
 * functions, and numbers of every code taken apart. */
#include <stdio.h>
#include <stdlib.h>
#include <string.h>

#include "cafruzek.h"

#define CHECK(fact)                                                       \
    do {                                                                  \
        if (!(fact)) {                                                    \
            fprintf(stderr, "%s:%d: %s\n", __FILE__, __LINE__, #fact);    \
            exit(1);                                                      \
        }                                                                 \
    } while (0)

static int32_t literals[CAFRUZEK_MOST_LITERALS];
static uint8_t arrangement[CAFRUZEK_MOST_VERTICES];

/* Judges these bytes in a mode, with buffers that hold what no answer writes. */
static uint64_t judge_in(uint32_t mode, const uint8_t *record, size_t length, uint32_t budget)
{
    memset(literals, 0x55, sizeof literals);
    memset(arrangement, 0x55, sizeof arrangement);
    return cafruzek_judge_record(record, length, mode, budget, literals, CAFRUZEK_MOST_LITERALS, arrangement);
}

static uint64_t judge(const uint8_t *record, size_t length, uint32_t budget)
{
    return judge_in(CAFRUZEK_BY_ROWS, record, length, budget);
}

static int unchanged(void)
{
    for (int i = 0; i < CAFRUZEK_MOST_LITERALS; i++)
        if (literals[i] != 0x55555555)
            return 0;
    for (int i = 0; i < CAFRUZEK_MOST_VERTICES; i++)
        if (arrangement[i] != 0x55)
            return 0;
    return 1;
}

static void judging(void)
{
    const uint8_t one_edge[] = {0x0c, 0x40, 0xff}, last_edge[] = {0x0c, 0x04}, half[] = {0x10, 0x10, 0x88};

    uint64_t answer = judge(one_edge, sizeof one_edge, UINT32_MAX);
    CHECK(cafruzek_code(answer) == CAFRUZEK_SMALLER && cafruzek_refusal(answer) == 0);
    CHECK(cafruzek_row(answer) == 1 && cafruzek_column(answer) == 2 && cafruzek_steps(answer) == 4);
    CHECK(cafruzek_literals(answer) == 2 && literals[0] == -1 && literals[1] == 2 && literals[2] == 0x55555555);
    CHECK(arrangement[0] == 1 && arrangement[1] == 3 && arrangement[2] == 2);
    for (int i = 3; i < CAFRUZEK_MOST_VERTICES; i++)
        CHECK(arrangement[i] == 0);

    answer = judge(one_edge, sizeof one_edge, 3);
    CHECK(cafruzek_code(answer) == CAFRUZEK_CUT && cafruzek_steps(answer) == 3 && unchanged());

    answer = judge(last_edge, sizeof last_edge, UINT32_MAX);
    CHECK(cafruzek_code(answer) == CAFRUZEK_NONE && cafruzek_steps(answer) == 13 && unchanged());

    /* Order 4, the entries 0, unknown, 0, 1, 0, 1. */
    answer = judge(half, sizeof half, UINT32_MAX);
    CHECK(cafruzek_code(answer) == CAFRUZEK_SMALLER && cafruzek_steps(answer) == 6);
    CHECK(cafruzek_row(answer) == 2 && cafruzek_column(answer) == 3 && cafruzek_literals(answer) == 3);
    CHECK(literals[0] == 3 && literals[1] == -4 && literals[2] == 5 && literals[3] == 0x55555555);
    CHECK(arrangement[0] == 1 && arrangement[1] == 2 && arrangement[2] == 4 && arrangement[3] == 3);

    /* By columns the same, found a step sooner. */
    answer = judge_in(CAFRUZEK_BY_COLUMNS, half, sizeof half, UINT32_MAX);
    CHECK(cafruzek_code(answer) == CAFRUZEK_SMALLER && cafruzek_steps(answer) == 5);
    CHECK(cafruzek_row(answer) == 2 && cafruzek_column(answer) == 3 && cafruzek_literals(answer) == 3);
    CHECK(literals[0] == 3 && literals[1] == -4 && literals[2] == 5 && literals[3] == 0x55555555);

    answer = judge_in(0, one_edge, sizeof one_edge, UINT32_MAX);
    CHECK(cafruzek_refusal(answer) == 16 && cafruzek_place(answer) == 0 && unchanged());
    answer = judge_in(3, one_edge, 1, UINT32_MAX);
    CHECK(cafruzek_refusal(answer) == 1 && cafruzek_place(answer) == 1 && unchanged());
}

/* Checks that reading refuses these bytes alike in both functions. */
static void refused(const uint8_t *record, size_t length, uint32_t number, uint32_t place)
{
    uint64_t answer = judge(record, length, UINT32_MAX);
    CHECK(cafruzek_refusal(answer) == number && cafruzek_place(answer) == place && unchanged());
    CHECK(cafruzek_record_size(record, length) == answer);
}

static void records(void)
{
    const uint8_t pad[] = {0x0c, 0x41}, entry[] = {0x0c, 0x70}, order[] = {0x84};
    refused(pad, 2, 4, 0);
    refused(entry, 2, 3, 2);
    refused(pad, 1, 1, 1);
    refused(pad, 0, 1, 0);
    refused(order, 1, 2, 33);

    const uint32_t edges[32] = {2, 1}, unknowns[32] = {0};
    uint8_t out[4] = {0x55, 0x55, 0x55, 0x55};
    CHECK(cafruzek_refusal(cafruzek_write_record(3, edges, unknowns, 1, out, 1)) == 6 && out[0] == 0x55);
    CHECK(cafruzek_refusal(cafruzek_write_record(1, edges, unknowns, 1, out, 4)) == 8 && out[0] == 0x55);
    CHECK(cafruzek_bytes(cafruzek_write_record(3, edges, unknowns, 1, out, 4)) == 2);
    CHECK(out[0] == 0x0c && out[1] == 0x40 && out[2] == 0x55 && out[3] == 0x55);
    CHECK(cafruzek_bytes(cafruzek_record_size(out, 4)) == 2);

    uint64_t answer = judge(out, 4, 100);
    memset(literals, 0x55, sizeof literals);
    memset(arrangement, 0x55, sizeof arrangement);
    CHECK(cafruzek_judge_rows(3, edges, unknowns, 1, CAFRUZEK_BY_ROWS, 100, literals, 3, arrangement) == answer);
    CHECK(literals[0] == -1 && literals[1] == 2 && literals[2] == 0x55555555 && arrangement[1] == 3);
    memset(literals, 0x55, sizeof literals);
    memset(arrangement, 0x55, sizeof arrangement);
    const uint32_t mode = CAFRUZEK_BY_COLUMNS;
    CHECK(cafruzek_refusal(cafruzek_judge_rows(3, edges, unknowns, 1, mode, 100, literals, 2, arrangement)) == 5);
    CHECK(cafruzek_refusal(cafruzek_judge_rows(3, edges, unknowns, 2, mode, 100, literals, 2, arrangement)) == 8);
    CHECK(cafruzek_refusal(cafruzek_judge_rows(3, edges, unknowns, 2, 3, 100, literals, 2, arrangement)) == 16);
    CHECK(unchanged());
}

/* Takes apart the number with these fields, put together as C1 of docs/RULES.md says. */
static void apart(uint64_t code, uint64_t count, uint64_t column, uint64_t row, uint64_t low)
{
    uint64_t answer = (((code * 4096 + count) * 64 + column) * 64 + row) * 4294967296 + low;
    CHECK(cafruzek_code(answer) == code);
    CHECK(cafruzek_refusal(answer) == (code > 128 ? code - 128 : 0));
    CHECK(cafruzek_literals(answer) == count);
    CHECK(cafruzek_column(answer) == column && cafruzek_row(answer) == row);
    CHECK(cafruzek_place(answer) == low && cafruzek_steps(answer) == low && cafruzek_bytes(answer) == low);
}

/* Every code, with the least and the most of each field, whatever the others are. */
static void fields(void)
{
    static const uint64_t codes[16] = {0, 1, 2, 129, 130, 131, 132, 133, 134, 135, 136, 137, 138, 139, 140, 144};
    static const uint64_t counts[6] = {0, 1, 255, 256, 496, 511};
    static const uint64_t vertices[6] = {0, 1, 31, 32, 33, 63};
    static const uint64_t lows[6] = {0, 1, 129, 0x7fffffff, 0x80000000, 0xffffffff};

    for (int i = 0; i < 16 * 6; i++)
        for (int j = 0; j < 6 * 6; j++)
            for (int k = 0; k < 6; k++)
                apart(codes[i / 6], counts[i % 6], vertices[j / 6], vertices[j % 6], lows[k]);
}

int main(void)
{
    judging();
    records();
    fields();
    return 0;
}
