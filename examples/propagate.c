/* How a solver calls the checker: after each assignment its propagator hands over
 * the half-drawn graph, and adds the clause that comes back.
 *
 *     (cd crates/cafruzek && rt lib)
 *     cc -Iinclude examples/propagate.c crates/cafruzek/out/libcafruzek.a -o propagate && ./propagate
 */
#include <stdio.h>

#include "cafruzek.h"

enum { ORDER = 5 };

/* What the solver has assigned: a variable for each pair of vertices. */
enum value { UNKNOWN, EDGE, NO_EDGE };
static enum value assigned[ORDER + 1][ORDER + 1];

/* The row masks that the checker reads: vertex v is bit v - 1, in the row at index
 * v - 1. Rows past the order stay zero. */
static void draw(uint32_t edges[32], uint32_t unknowns[32])
{
    for (int i = 0; i < 32; i++)
        edges[i] = unknowns[i] = 0;
    for (int i = 1; i <= ORDER; i++) {
        for (int j = i + 1; j <= ORDER; j++) {
            uint32_t *rows = assigned[i][j] == EDGE ? edges : unknowns;
            if (assigned[i][j] == NO_EDGE)
                continue;
            rows[i - 1] |= UINT32_C(1) << (j - 1);
            rows[j - 1] |= UINT32_C(1) << (i - 1);
        }
    }
}

/* Prints the pair with a number, counted in row order from 1. */
static void print_pair(int32_t number)
{
    int i = 1;
    while (number > ORDER - i)
        number -= ORDER - i++;
    printf("(%d,%d)", i, i + (int)number);
}

static void propagate(void)
{
    uint32_t edges[32], unknowns[32];
    int32_t clause[CAFRUZEK_MOST_LITERALS];
    uint8_t arrangement[32];

    draw(edges, unknowns);
    uint64_t answer = cafruzek_judge_rows(ORDER, edges, unknowns, 1, CAFRUZEK_BY_ROWS, 10000,
                                          clause, CAFRUZEK_MOST_LITERALS, arrangement);
    switch (cafruzek_code(answer)) {
    case CAFRUZEK_NONE:
        printf("none after %u steps: go on\n", (unsigned)cafruzek_steps(answer));
        return;
    case CAFRUZEK_CUT:
        printf("cut after %u steps: go on\n", (unsigned)cafruzek_steps(answer));
        return;
    case CAFRUZEK_SMALLER:
        break;
    default:
        printf("refused %u, place %u\n", (unsigned)cafruzek_refusal(answer), (unsigned)cafruzek_place(answer));
        return;
    }

    printf("smaller after %u steps, at the pair (%u,%u), by the arrangement", (unsigned)cafruzek_steps(answer),
           (unsigned)cafruzek_row(answer), (unsigned)cafruzek_column(answer));
    for (int i = 0; i < ORDER; i++)
        printf(" %d", arrangement[i]);
    printf("\n  new clause:");
    for (size_t k = 0; k < cafruzek_literals(answer); k++)
        printf(" %d", (int)clause[k]);
    printf("  which says:");
    for (size_t k = 0; k < cafruzek_literals(answer); k++) {
        printf(clause[k] < 0 ? "%s no edge " : "%s an edge ", k == 0 ? "" : " or");
        print_pair(clause[k] < 0 ? -clause[k] : clause[k]);
    }
    printf("\n");
}

static void assign(int i, int j, enum value value)
{
    assigned[i][j] = value;
    printf("(%d,%d) is %s: ", i, j, value == EDGE ? "an edge" : "no edge");
    propagate();
}

int main(void)
{
    assign(1, 5, EDGE);
    assign(2, 4, EDGE);
    assign(1, 2, NO_EDGE);
    assign(3, 4, NO_EDGE);
    assign(1, 3, NO_EDGE);
    /* With the new clause the solver turns its last assignment round. */
    assign(1, 3, EDGE);
    return 0;
}
