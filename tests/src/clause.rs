//! The clause of a certificate with row masks and two walks at most: the same as
//! `judge_plain::clause`, for every order.
//!
//! An unknown entry is driven where it is first met: to 1 as an image, to 0 at its own
//! place. A known entry of that value changes nothing, so its literal is dropped. Of
//! the others all but those at the winning pair are needed: without one of them the
//! walk is lost where it is first met.
//!
//! Inside this file places, vertices and rows count from 0.

use crate::graph::Graph;
use crate::masks::{below, is_set};
use crate::pairs::{BY_ROWS, is_before, rank};

type Pair = (usize, usize);

/// Pairs, as masks of their columns by rows.
struct Pairs([u32; 32]);

impl Pairs {
    fn has(&self, (i, j): Pair) -> bool {
        is_set(self.0[i & 31], j)
    }

    fn put(&mut self, (i, j): Pair) {
        self.0[i & 31] |= 1 << (j & 31);
    }

    fn remove(&mut self, (i, j): Pair) {
        self.0[i & 31] &= !(1 << (j & 31));
    }
}

/// A certificate of a graph in a mode, with its winning pair: the vertices at their
/// places, the places of the vertices, and the mask of those that stay in their place.
struct Certificate<'a> {
    graph: &'a Graph,
    mode: u32,
    vertices: &'a [u8; 32],
    places: [u8; 32],
    fixed: u32,
    winning: Pair,
}

impl Certificate<'_> {
    fn new<'a>(
        graph: &'a Graph,
        mode: u32,
        vertices: &'a [u8; 32],
        winning: Pair,
    ) -> Certificate<'a> {
        let mut places = [0; 32];
        let mut fixed = 0;
        for (place, vertex) in (0..graph.order as u8).zip(vertices) {
            places[usize::from(vertex & 31)] = place;
            fixed |= u32::from(place == *vertex) << place;
        }
        Certificate { graph, mode, vertices, places, fixed, winning }
    }

    /// Where a pair goes.
    fn image(&self, pair: Pair) -> Pair {
        taken(self.vertices, pair)
    }

    /// Where a pair comes from.
    fn source(&self, pair: Pair) -> Pair {
        taken(&self.places, pair)
    }

    /// Whether a pair comes before another one.
    fn is_before(&self, pair: Pair, other: Pair) -> bool {
        is_before(self.mode, pair, other)
    }

    /// The columns of the pairs of a row; by columns, the rows of those of a column.
    fn line(&self, line: usize) -> u32 {
        if self.mode == BY_ROWS {
            below(self.graph.order as usize) & !below(line + 1)
        } else {
            below(line)
        }
    }

    /// The places of a line where the pair is its own image.
    fn own_images(&self, line: usize) -> u32 {
        let (vertex, place) = (usize::from(self.vertices[line]), usize::from(self.places[line]));
        if vertex == line { self.fixed } else { u32::from(vertex == place) << vertex }
    }

    /// The pairs met up to the winning one whose known value is not the one that an
    /// unknown entry is driven to there.
    fn not_as_driven(&self) -> Pairs {
        let (last_line, last) = rank(self.mode, self.winning);
        let mut found = Pairs([0; 32]);
        for line in 0..=last_line {
            let end = if line == last_line { last + 1 } else { 32 };
            for at in set_in(self.line(line) & below(end)) {
                let pair = rank(self.mode, (line, at));
                let image = self.image(pair);
                if is_edge(self.graph, pair) && self.is_before(pair, self.source(pair)) {
                    found.put(pair);
                }
                if is_non_edge(self.graph, image) && self.is_before(pair, image) {
                    found.put(image);
                }
            }
        }
        found
    }

    /// Whether the walk that knows only these entries, and goes on after the winning
    /// pair, is won later. All it can know there is a 0 at the pair itself and a 1 at its
    /// image; the others are as they are driven.
    fn wins_later(&self, known: &Pairs) -> bool {
        let (first_line, first) = rank(self.mode, self.winning);
        for line in first_line..self.graph.order as usize {
            let start = if line == first_line { first + 1 } else { 0 };
            for at in set_in(self.line(line) & !below(start) & !self.own_images(line)) {
                let pair = rank(self.mode, (line, at));
                let image = self.image(pair);
                let one = self.is_before(self.source(pair), pair) && !known.has(pair);
                let zero = self.is_before(image, pair) && !known.has(image);
                if one == zero {
                    return one;
                }
            }
        }
        false
    }

    /// The pairs of the clause. Those at the winning pair are tried, that with the higher
    /// number first; where it is dropped the other is needed.
    fn needed(&self) -> Pairs {
        let mut needed = self.not_as_driven();
        let image = self.image(self.winning);
        for pair in [image.max(self.winning), image.min(self.winning)] {
            if needed.has(pair) {
                needed.remove(pair);
                if self.wins_later(&needed) {
                    break;
                }
                needed.put(pair);
            }
        }
        needed
    }
}

/// The bits of a mask from the lowest up.
fn set_in(mut mask: u32) -> impl Iterator<Item = usize> {
    std::iter::from_fn(move || {
        let lowest = (mask != 0).then(|| mask.trailing_zeros() as usize);
        mask &= mask.wrapping_sub(1);
        lowest
    })
}

/// The pair that a list takes a pair to.
fn taken(to: &[u8; 32], (i, j): Pair) -> Pair {
    let (x, y) = (usize::from(to[i & 31]), usize::from(to[j & 31]));
    (x.min(y), x.max(y))
}

fn is_edge(graph: &Graph, (i, j): Pair) -> bool {
    is_set(graph.edges[i & 31], j)
}

fn is_non_edge(graph: &Graph, (i, j): Pair) -> bool {
    !is_set(graph.edges[i & 31] | graph.unknowns[i & 31], j)
}

/// Writes the clause of a certificate with this winning pair, and tells how many
/// literals it has. All are false in the graph, so an edge's is negated.
pub fn write(
    graph: &Graph,
    mode: u32,
    vertices: &[u8; 32],
    winning: Pair,
    buffer: &mut [i32],
) -> usize {
    let order = graph.order as usize;
    let needed = Certificate::new(graph, mode, vertices, winning).needed();
    let mut length = 0;
    let mut before_row = 0;
    for (row, &columns) in needed.0.iter().enumerate().take(order) {
        for column in set_in(columns) {
            let number = (before_row + column - row) as i32;
            buffer[length] = if is_edge(graph, (row, column)) { -number } else { number };
            length += 1;
        }
        before_row += order - 1 - row;
    }
    length
}
