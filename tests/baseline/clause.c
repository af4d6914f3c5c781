/* The clause of what a search found.
 *
 * An unknown entry is driven where it is first met: to 1 as an image, to 0 at its own
 * place. A known entry of that value changes nothing, so its literal is dropped. Of the
 * others all but those at the winning pair are needed: without one of them the walk is
 * lost where it is first met. What depends on the mode is compiled once for each. */
#include "baseline.h"

/* A pair as one number, by which pairs are in row order. */
static inline uint32_t pair(uint32_t x, uint32_t y)
{
    return x < y ? x << 5 | y : y << 5 | x;
}

/* The same by which they are in the order of a mode. */
ALWAYS_INLINE uint32_t rank(uint32_t mode, uint32_t x, uint32_t y)
{
    return mode == BY_ROWS ? pair(x, y) : x < y ? y << 5 | x : x << 5 | y;
}

/* Pairs as masks of their columns, by rows. */
static inline bool has(const uint32_t pairs[32], uint32_t pair)
{
    return pairs[pair >> 5] >> (pair & 31) & 1;
}

static inline void turn(uint32_t pairs[32], uint32_t pair)
{
    pairs[pair >> 5] ^= bit(pair & 31);
}

/* ---- The arrangement ---- */

/* The place of each vertex, the vertices that stay in their place, and those that come to
 * a place before it. */
struct moves {
    uint32_t places[32];
    uint32_t fixed, lowered;
};

static inline void set_moves(uint32_t order, const uint32_t *restrict vertices,
                             struct moves *restrict moves)
{
    uint32_t fixed = 0, lowered = 0;
    for (uint32_t i = 0; i < order; i++) {
        const uint32_t x = vertices[i];
        moves->places[x] = i;
        fixed |= (uint32_t)(x == i) << x;
        lowered |= (uint32_t)(i < x) << x;
    }
    moves->fixed = fixed;
    moves->lowered = lowered;
}

/* The vertices at the places below a bound. */
static inline uint32_t vertices_below(uint32_t bound, const uint32_t *vertices)
{
    uint32_t found = 0;
    for (uint32_t i = 0; i < bound; i++)
        found |= bit(vertices[i]);
    return found;
}

/* The other vertices with which vertex i, whose place holds this one, makes a pair that is
 * its own image. */
static inline uint32_t own_images(uint32_t i, uint32_t vertex, const struct moves *moves)
{
    return vertex == i ? moves->fixed : moves->places[i] == vertex ? bit(vertex) : 0;
}

/* ---- The pairs met ---- */

/* The winning pair, and the vertices at the places before its row, to its row and before its
 * column. */
struct win {
    uint32_t row, column;
    uint32_t before_row, to_row, before_column;
};

/* The columns of row i where the pair was met as itself. */
ALWAYS_INLINE uint32_t met_as_itself(uint32_t mode, uint32_t i, const struct win *win)
{
    if (mode == BY_COLUMNS)
        return below(win->column) | (uint32_t)(i <= win->row) << win->column;
    return i < win->row ? UINT32_MAX : i == win->row ? below(win->column + 1) : 0;
}

/* Those where it was met as an image; vertex i is at this place. */
ALWAYS_INLINE uint32_t met_as_image(uint32_t mode, uint32_t place, const struct win *win,
                                    const uint32_t *vertices)
{
    const uint32_t row = win->row, column = win->column, at_column = vertices[column];
    if (mode == BY_COLUMNS)
        return place < column ? win->before_column | (uint32_t)(place <= row) << at_column
            : place == column ? win->to_row
            : 0;
    return place < row ? UINT32_MAX
        : place == row ? win->before_column | bit(at_column)
        : place <= column ? win->to_row
        : win->before_row;
}

/* Those where it is the image of an earlier pair. Earlier are the vertices at the places
 * before i. */
ALWAYS_INLINE uint32_t earlier_sources(uint32_t mode, uint32_t i, uint32_t vertex,
                                       uint32_t earlier, const struct moves *moves)
{
    const uint32_t place = moves->places[i], lowered = moves->lowered;
    if (place == i)
        return lowered;
    if (mode == BY_COLUMNS)
        return place < i ? lowered | moves->fixed
            : (lowered & ~below(place + 1)) | (uint32_t)(moves->places[place] < i) << place;
    return place < i ? UINT32_MAX : earlier | (uint32_t)(place < vertex) << vertex;
}

/* ---- The pairs of the clause ---- */

/* Sets the pairs met up to the winning one whose known value is not the one that an unknown
 * entry is driven to there, and answers the rows that have some. */
ALWAYS_INLINE uint32_t not_as_driven(uint32_t mode, uint32_t order,
                                     const uint32_t *restrict edges,
                                     const uint32_t *restrict unknowns,
                                     const struct found *restrict found,
                                     const struct moves *restrict moves, uint32_t *restrict pairs)
{
    const uint32_t *vertices = found->vertices;
    struct win win = {.row = found->row, .column = found->column};
    win.before_row = vertices_below(win.row, vertices);
    win.to_row = win.before_row | bit(vertices[win.row]);
    win.before_column = vertices_below(win.column, vertices);
    uint32_t rows = 0, earlier = 0;
    for (uint32_t i = 0; i < order; i++) {
        const uint32_t vertex = vertices[i];
        const uint32_t sources = earlier_sources(mode, i, vertex, earlier, moves);
        const uint32_t itself = met_as_itself(mode, i, &win);
        const uint32_t image = met_as_image(mode, moves->places[i], &win, vertices);
        const uint32_t ones = edges[i] & itself & ~sources & ~own_images(i, vertex, moves);
        const uint32_t zeros = ~(edges[i] | unknowns[i]) & image & sources;
        pairs[i] = (ones | zeros) & below(order) & ~below(i + 1);
        rows |= (uint32_t)(pairs[i] != 0) << i;
        earlier |= bit(vertex);
    }
    return rows;
}

/* Whether the walk that knows only these pairs, and goes on after the winning one, is won
 * later. All it can know there is a 0 at the pair itself and a 1 at its image; the others
 * are as they are driven. A line is a row, or by columns a column. */
ALWAYS_INLINE bool wins_later(uint32_t mode, uint32_t order, const struct found *restrict found,
                              const struct moves *restrict moves, const uint32_t *restrict known)
{
    const uint32_t *vertices = found->vertices, *places = moves->places;
    const uint32_t won = rank(mode, found->row, found->column);
    uint32_t passed = below((won & 31) + 1);
    for (uint32_t line = won >> 5; line < order; line++, passed = 0) {
        const uint32_t places_of_line =
            mode == BY_ROWS ? below(order) & ~below(line + 1) : below(line);
        uint32_t left = places_of_line & ~passed & ~own_images(line, vertices[line], moves);
        for (; left; left &= left - 1) {
            const uint32_t at = (uint32_t)__builtin_ctz(left), here = rank(mode, line, at);
            const uint32_t x = vertices[line], y = vertices[at];
            const bool one = rank(mode, places[line], places[at]) < here
                && !has(known, pair(line, at));
            const bool zero = rank(mode, x, y) < here && !has(known, pair(x, y));
            if (one == zero)
                return one;
        }
    }
    return false;
}

NEVER_INLINE bool wins_later_by_rows(uint32_t order, const struct found *found,
                                     const struct moves *moves, const uint32_t *known)
{
    return wins_later(BY_ROWS, order, found, moves, known);
}

NEVER_INLINE bool wins_later_by_columns(uint32_t order, const struct found *found,
                                        const struct moves *moves, const uint32_t *known)
{
    return wins_later(BY_COLUMNS, order, found, moves, known);
}

/* Whether a pair can be dropped from these, the others left; if so it is. */
ALWAYS_INLINE bool drop(uint32_t mode, uint32_t pair, uint32_t order,
                        const struct found *restrict found, const struct moves *restrict moves,
                        uint32_t *restrict pairs)
{
    if (!has(pairs, pair))
        return false;
    turn(pairs, pair);
    if (mode == BY_ROWS ? wins_later_by_rows(order, found, moves, pairs)
                        : wins_later_by_columns(order, found, moves, pairs))
        return true;
    turn(pairs, pair);
    return false;
}

/* Drops what is not needed at the winning pair: of it and its image the one with the higher
 * number is tried first, and where that is dropped the other is needed. */
ALWAYS_INLINE void drop_at_the_win(uint32_t mode, uint32_t order,
                                   const struct found *restrict found,
                                   const struct moves *restrict moves, uint32_t *restrict pairs)
{
    const uint32_t row = found->row, column = found->column;
    const uint32_t itself = pair(row, column);
    const uint32_t image = pair(found->vertices[row], found->vertices[column]);
    const uint32_t higher = itself < image ? image : itself;
    if (!drop(mode, higher, order, found, moves, pairs))
        drop(mode, itself ^ image ^ higher, order, found, moves, pairs);
}

/* Sets the pairs of the clause, and answers the rows that had some. */
ALWAYS_INLINE uint32_t clause(uint32_t mode, uint32_t order, const uint32_t *restrict edges,
                              const uint32_t *restrict unknowns,
                              const struct found *restrict found, uint32_t *restrict pairs)
{
    struct moves moves;
    set_moves(order, found->vertices, &moves);
    const uint32_t rows = not_as_driven(mode, order, edges, unknowns, found, &moves, pairs);
    drop_at_the_win(mode, order, found, &moves, pairs);
    return rows;
}

size_t baseline_write_clause(uint32_t order, const uint32_t edges[32],
                             const uint32_t unknowns[32], uint32_t mode,
                             const struct found *found, int32_t *literals)
{
    uint32_t pairs[32];
    uint32_t rows = mode == BY_ROWS ? clause(BY_ROWS, order, edges, unknowns, found, pairs)
                                    : clause(BY_COLUMNS, order, edges, unknowns, found, pairs);
    size_t count = 0;
    for (; rows; rows &= rows - 1) {
        const uint32_t i = (uint32_t)__builtin_ctz(rows);
        const uint32_t before = i * (2 * order - 1 - i) / 2;  /* the pairs before this row */
        for (uint32_t left = pairs[i]; left; left &= left - 1) {
            const uint32_t j = (uint32_t)__builtin_ctz(left);
            const int32_t number = (int32_t)(before + (j - i));
            literals[count++] = edges[i] >> j & 1 ? -number : number;
        }
    }
    return count;
}
