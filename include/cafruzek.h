/* Cafruzek judges partially drawn graphs: is there a permitted renumbering of the
 * vertices under which every way to complete this graph has a copy that is smaller
 * in dictionary order? "None" says that no single renumbering does this for all
 * completions; each of them may still have a smaller copy by one of its own. Of a
 * fully drawn graph it says that no permitted renumbering is smaller.
 *
 * Each function is one call on memory that the caller lends for that call.
 * Nothing is allocated, nothing is kept between two calls, a call takes less than
 * 2 KiB of the stack, and calls from several threads may run at once, each with its
 * own buffers.
 *
 * Vertices and places are numbered from 1. A pair is two vertices i < j. Pairs are
 * numbered from 1 in row order, (1,2), (1,3), .., (1,n), (2,3), and so on, in every
 * mode: the pair (i,j) has number (i-1)(2n-i)/2 + (j-i). The rules are in
 * docs/RULES.md.
 *
 * What every pointer must be: not null, even where its length is 0; aligned for its
 * type; to as many elements as the length beside it or the array's bound says. What
 * is written to overlaps nothing else that is lent to the same call. */
#ifndef CAFRUZEK_H
#define CAFRUZEK_H

#include <stddef.h>
#include <stdint.h>

#ifdef __cplusplus
extern "C" {
#endif

enum {
    /* The largest order. Rows and arrangements have this many elements. */
    CAFRUZEK_MOST_VERTICES = 32,
    /* Literals that suffice for every order: 32 * 31 / 2. */
    CAFRUZEK_MOST_LITERALS = 496,
    /* Bytes that suffice for every record. */
    CAFRUZEK_MOST_BYTES = 129
};

/* The modes: the order in which the pairs of two drawings are compared. Any other
 * mode, 0 too, is refused by 16. */
enum {
    /* By rows: (1,2), (1,3), .., (1,n), (2,3), and so on. */
    CAFRUZEK_BY_ROWS = 1,
    /* By columns: (1,2), (1,3), (2,3), (1,4), and so on. Of a graph in one block
     * that is smallest so, the first m vertices are smallest too. */
    CAFRUZEK_BY_COLUMNS = 2
};

/* ---- Judging ----
 *
 * mode          CAFRUZEK_BY_ROWS or CAFRUZEK_BY_COLUMNS. A search uses one of them
 *               all along: the smallest copy of every network survives the clauses
 *               of one mode, and clauses of both together may cut off all copies.
 * budget        how many steps may be taken, 0 to 4,294,967,295. Where the steps
 *               needed are more, the answer is "cut"; a budget of 0 is always cut.
 * literals      a buffer for the clause, of literals_len numbers. It must have at
 *               least n(n-1)/2 of them, else refusal 5. Only "smaller" writes: the
 *               clause at its start, by rising pair number, a literal being the
 *               pair's number, negative for "not an edge", positive for "an edge".
 *               No literal of it can be dropped: without any one, it would cut off
 *               a drawing that the renumbering does not make smaller. Nothing
 *               after the clause is changed.
 * arrangement   32 numbers. Only "smaller" writes: all 32, at index i - 1 the vertex
 *               put at place i, and zeros after place n.
 *
 * The answer is one number; cafruzek_code and the functions beside it take it apart.
 * "None", "cut" and every refusal change no byte that was lent. */

/* Judges the graph of the record at the start of some bytes. Bytes after the record
 * are ignored. Refusals, in this order: 1, 2, 1, 3, 4 of the record, with their
 * places, 16 and 5.
 *
 * record        the bytes, record_len of them. They are only read. */
uint64_t cafruzek_judge_record(const uint8_t *record, size_t record_len,
                               uint32_t mode, uint32_t budget,
                               int32_t *literals, size_t literals_len,
                               uint8_t arrangement[32]);

/* Judges the graph of these rows. Refusals, in this order: 16, 8, 5.
 *
 * order         n, 1 to 32.
 * edges         32 rows, that of vertex i at index i - 1; bit j - 1 is set where
 *               {i,j} is an edge. Rows are symmetric, with nothing on the diagonal
 *               and nothing past the order.
 * unknowns      the same for the entries that are not drawn yet. No entry is set in
 *               both; one that is set in neither is a non-edge.
 * starts        bit v - 1 is set where vertex v starts a block: vertex 1 always
 *               does. 1 is one block, in which every renumbering is permitted.
 * All of these are only read. Any values may stand in them: what makes no graph is
 * refused by 8. */
uint64_t cafruzek_judge_rows(uint32_t order,
                             const uint32_t edges[32], const uint32_t unknowns[32],
                             uint32_t starts, uint32_t mode, uint32_t budget,
                             int32_t *literals, size_t literals_len,
                             uint8_t arrangement[32]);

/* ---- Records ----
 *
 * The answer is a number of bytes, cafruzek_bytes, or a refusal. */

/* How many bytes the record at the start of some bytes takes: the next record of a
 * book starts there. Refuses as reading does: 1, 2, 1, 3, 4.
 *
 * record        the bytes, record_len of them. They are only read. */
uint64_t cafruzek_record_size(const uint8_t *record, size_t record_len);

/* Writes the record of these rows, which are as for cafruzek_judge_rows. Refusals,
 * in this order: 8, and 6 where the buffer is below the record.
 *
 * out           a buffer of out_len bytes; 129 suffice for every order. The record is
 *               written at its start, and nothing after it is changed. A refusal
 *               changes nothing. */
uint64_t cafruzek_write_record(uint32_t order,
                               const uint32_t edges[32], const uint32_t unknowns[32],
                               uint32_t starts,
                               uint8_t *out, size_t out_len);

/* ---- Taking an answer apart ---- */

/* What an answer is: one of the codes below, or 128 and the number of a refusal. An
 * answer with a number of bytes has code 0. */
enum {
    CAFRUZEK_NONE = 0,
    CAFRUZEK_SMALLER = 1,
    CAFRUZEK_CUT = 2
};

static inline uint32_t cafruzek_code(uint64_t answer)
{
    return (uint32_t)(answer >> 56);
}

/* The number of the refusal, 0 where there is none. */
static inline uint32_t cafruzek_refusal(uint64_t answer)
{
    uint32_t code = cafruzek_code(answer);
    return code < 128 ? 0 : code - 128;
}

/* The place given with a refusal. One above 4,294,967,295 is given as that number. */
static inline uint32_t cafruzek_place(uint64_t answer)
{
    return (uint32_t)answer;
}

/* The steps of a judgement that is no refusal; for "cut" that is the budget. */
static inline uint32_t cafruzek_steps(uint64_t answer)
{
    return (uint32_t)answer;
}

/* The row and the column of the winning pair, at which the renumbering shows itself
 * smaller in the graph that was given (S1 of the rules); 0 except for "smaller". */
static inline uint32_t cafruzek_row(uint64_t answer)
{
    return (uint32_t)(answer >> 32) & 63;
}

static inline uint32_t cafruzek_column(uint64_t answer)
{
    return (uint32_t)(answer >> 38) & 63;
}

/* How many literals were written; 0 except for "smaller". */
static inline size_t cafruzek_literals(uint64_t answer)
{
    return (size_t)(answer >> 44) & 511;
}

/* The bytes of a record or of a writing that is no refusal. */
static inline size_t cafruzek_bytes(uint64_t answer)
{
    return (size_t)(uint32_t)answer;
}

#ifdef __cplusplus
}
#endif

#endif
