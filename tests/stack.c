/* How much of the stack each function takes, at most. Every call is made on a stack
 * of its own that was painted, filled with one byte: what holds another byte after
 * the call was touched by it. The frame from which the call is made, of some bytes,
 * is counted too. */
#define _XOPEN_SOURCE 700
#include <stdio.h>
#include <stdlib.h>
#include <string.h>
#include <ucontext.h>

#include "cafruzek.h"

enum { PAINT = 0xa5 };
static uint8_t stack[65536];

/* What the calls are lent, and the answer of the last one. */
static uint32_t order, starts, mode, budget;
static uint32_t edges[32], unknowns[32];
static int32_t literals[CAFRUZEK_MOST_LITERALS];
static uint8_t arrangement[32], record[CAFRUZEK_MOST_BYTES];
static size_t literals_len, record_len;
static uint64_t answer;

static void judge_record(void)
{
    answer = cafruzek_judge_record(record, record_len, mode, budget, literals, literals_len, arrangement);
}

static void judge_rows(void)
{
    answer = cafruzek_judge_rows(order, edges, unknowns, starts, mode, budget, literals, literals_len, arrangement);
}

static void record_size(void)
{
    answer = cafruzek_record_size(record, record_len);
}

static void write_record(void)
{
    answer = cafruzek_write_record(order, edges, unknowns, starts, record, record_len);
}

/* The functions, with the most bytes that each may touch: below 2,048, and so near to
 * what it does touch that one more array of 32 words is seen. Then what was seen: the
 * bytes touched, the literals written, and which answers were given: none, smaller,
 * cut, refused. */
static struct function {
    const char *name;
    void (*call)(void);
    size_t most;
    int judges;
    size_t touched, literals;
    int seen[4];
} functions[] = {
    {"cafruzek_judge_record", judge_record, 1850, 1, 0, 0, {0}},
    {"cafruzek_judge_rows", judge_rows, 1550, 1, 0, 0, {0}},
    {"cafruzek_record_size", record_size, 300, 0, 0, 0, {0}},
    {"cafruzek_write_record", write_record, 950, 0, 0, 0, {0}},
};
enum { JUDGE_RECORD, JUDGE_ROWS, RECORD_SIZE, WRITE_RECORD, FUNCTIONS };

static void require(int fact, const char *otherwise)
{
    if (!fact) {
        fprintf(stderr, "stack: %s\n", otherwise);
        exit(1);
    }
}

/* Makes a call on the painted stack, and answers how many bytes were touched. */
static size_t touched(void (*call)(void))
{
    static ucontext_t here, there;
    memset(stack, PAINT, sizeof stack);
    require(getcontext(&there) == 0, "there is no context to be had");
    there.uc_stack.ss_sp = stack;
    there.uc_stack.ss_size = sizeof stack;
    there.uc_link = &here;
    makecontext(&there, call, 0);
    require(swapcontext(&here, &there) == 0, "the stack can't be changed");
    size_t left = 0;
    while (left < sizeof stack && stack[left] == PAINT)
        left++;
    return sizeof stack - left;
}

/* The same for one of the functions, of which the largest numbers are kept. The call
 * is made once before, so that nothing is linked while the stack is painted. */
static void make(int which)
{
    struct function *function = &functions[which];
    function->call();
    size_t bytes = touched(function->call);
    if (bytes > function->touched)
        function->touched = bytes;
    if (cafruzek_literals(answer) > function->literals)
        function->literals = cafruzek_literals(answer);
    function->seen[cafruzek_refusal(answer) != 0 ? 3 : cafruzek_code(answer)] = 1;
}

/* ---- graphs ---- */

static void clear(void)
{
    memset(edges, 0, sizeof edges);
    memset(unknowns, 0, sizeof unknowns);
}

static void set(uint32_t rows[32], uint32_t i, uint32_t j)
{
    rows[i - 1] |= UINT32_C(1) << (j - 1);
    rows[j - 1] |= UINT32_C(1) << (i - 1);
}

/* One block without edges: all arrangements are walked to their end, up to the
 * budget. */
static void bare(void)
{
    clear();
}

/* The same, where each vertex is a block. */
static void fixed(void)
{
    clear();
    starts = UINT32_MAX >> (32 - order);
}

/* Nothing is drawn yet. */
static void undrawn(void)
{
    clear();
    for (uint32_t i = 1; i <= order; i++)
        for (uint32_t j = i + 1; j <= order; j++)
            set(unknowns, i, j);
}

/* One edge, the first. */
static void first_edge(void)
{
    clear();
    if (order > 1)
        set(edges, 1, 2);
}

/* Blocks of two, which change places all together or not at all, and then a pair near
 * the last wins: a long clause. */
static void twins(void)
{
    clear();
    starts = UINT32_C(0x55555555) & UINT32_MAX >> (32 - order);
    for (uint32_t i = 1; i <= order; i++)
        for (uint32_t j = i + 1; j <= order; j++)
            if ((i + j) % 2 == 1 && (j != i + 1 || i % 2 == 0))
                set(edges, i, j);
    uint32_t even = order - order % 2;
    if (even > 2)
        set(edges, even - 3, even - 1);
}

/* ---- calls ---- */

/* Judges the rows and writes their record, as they are and as no graph. */
static void rows(void)
{
    make(JUDGE_ROWS);
    edges[0] ^= 1;
    make(JUDGE_ROWS);
    make(WRITE_RECORD);
    edges[0] ^= 1;
    record_len = 0;
    make(WRITE_RECORD);
    record_len = sizeof record;
    make(WRITE_RECORD);
    record_len = cafruzek_bytes(answer);
}

/* Measures and judges the record: whole, cut short, and with every bit set after its
 * first byte. */
static void records(void)
{
    make(RECORD_SIZE);
    make(JUDGE_RECORD);
    record_len--;
    make(RECORD_SIZE);
    make(JUDGE_RECORD);
    record_len++;
    memset(record + 1, 0xff, record_len - 1);
    make(RECORD_SIZE);
    make(JUDGE_RECORD);
}

/* All calls with the graph that is drawn, in this mode. */
static void calls(uint32_t in_mode)
{
    static const uint32_t budgets[] = {0, 1, 100000};
    uint32_t pairs = order * (order - 1) / 2;
    mode = in_mode;
    for (size_t b = 0; b < sizeof budgets / sizeof *budgets; b++) {
        budget = budgets[b];
        literals_len = pairs;
        rows();
        records();
        literals_len = pairs - (pairs > 0);
        rows();
        records();
    }
}

int main(void)
{
    static void (*const draw[])(void) = {bare, fixed, undrawn, first_edge, twins};
    for (order = 1; order <= 32; order++)
        for (size_t g = 0; g < sizeof draw / sizeof *draw; g++) {
            starts = 1;
            draw[g]();
            calls(CAFRUZEK_BY_ROWS);
            calls(CAFRUZEK_BY_COLUMNS);
        }
    for (int f = 0; f < FUNCTIONS; f++)
        printf("%-22s %5zu bytes of the stack, at most %zu\n", functions[f].name, functions[f].touched,
               functions[f].most);
    for (int f = 0; f < FUNCTIONS; f++) {
        const struct function *function = &functions[f];
        require(function->seen[0] && function->seen[3], "an answer was not seen");
        require(!function->judges || (function->seen[1] && function->seen[2]), "a judgement was not seen");
        require(!function->judges || function->literals > 230, "no long clause was seen");
        require(function->touched <= function->most, "a function takes too much of the stack");
    }
    return 0;
}
