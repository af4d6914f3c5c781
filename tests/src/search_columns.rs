//! The search by columns: a reached beginning differs from its shorter ones by its last
//! column, so a step walks that column.

use crate::board::{Board, Found, Line, Path, pair_of};
use crate::masks::is_set;
use crate::pairs::{BY_COLUMNS, is_before};

impl Board<'_> {
    /// The walk along a column, the last one of the path, which has these vertices in use.
    fn walk_column<const DRAWN: bool>(&self, path: &Path, used: u32, column: usize) -> Line {
        let to = path.vertex(column);
        if !DRAWN && self.unknowns[column] | self.unknowns[to] != 0 {
            return self.walk_column_half_drawn(path, used, column);
        }
        let (mut edges, non_edges) = (self.edges[column], self.non_edges[to]);
        for row in 0..column {
            let is_edge = edges & 1;
            if is_edge == non_edges >> path.vertex(row) & 1 {
                return if is_edge == 1 { Line::Won(row) } else { Line::Lost };
            }
            edges >>= 1;
        }
        Line::GoesOn
    }

    /// The same where entries are unknown.
    ///
    /// No value is carried along. An unknown entry was driven where it was met at an
    /// earlier pair: to 1 if that was as an image, to 0 if it was as the pair itself. It
    /// was met as an image only if both its vertices are in use.
    fn walk_column_half_drawn(&self, path: &Path, used: u32, column: usize) -> Line {
        let to = path.vertex(column);
        for row in 0..column {
            let other = path.vertex(row);
            if pair_of(to, other) == (row, column) {
                continue;
            }
            let comes_before = |x, y| is_before(BY_COLUMNS, pair_of(x, y), (row, column));
            let was_image = || {
                is_set(used, row)
                    && is_set(used, column)
                    && comes_before(path.place(row), path.place(column))
            };
            let one = is_set(self.edges[column], row)
                || is_set(self.unknowns[column], row) && was_image();
            let zero = is_set(self.non_edges[to], other)
                || is_set(self.unknowns[to], other) && comes_before(to, other);
            match (one, zero) {
                (true, true) => return Line::Won(row),
                (false, false) => return Line::Lost,
                _ => {}
            }
        }
        Line::GoesOn
    }

    /// Tries beginnings in dictionary order until one is won or the budget is spent.
    /// DRAWN says that the graph has no unknowns, and leaves out what these need.
    pub fn search_by_columns<const DRAWN: bool>(&self, budget: u32) -> Found {
        let mut path = Path::EMPTY;
        let mut untried = [0u32; 32];
        let mut used = 0u32;
        let mut place = 0usize;
        let mut left = self.blocks[0];
        let mut steps = 0u32;
        loop {
            if left == 0 {
                if place == 0 {
                    return Found::Nothing { steps };
                }
                place -= 1;
                used ^= 1 << path.vertex(place);
                left = untried[place & 31];
                continue;
            }
            if steps == budget {
                return Found::Cut;
            }
            steps += 1;
            let vertex = left.trailing_zeros() as usize;
            left &= left - 1;
            path.vertices[place & 31] = vertex as u8;
            path.places[vertex & 31] = place as u8;

            let with_vertex = used | 1 << vertex;
            match self.walk_column::<DRAWN>(&path, with_vertex, place) {
                Line::Won(row) => {
                    self.fill(&mut path.vertices, place + 1, with_vertex);
                    return Found::Won { vertices: path.vertices, row, column: place, steps };
                }
                Line::GoesOn if place + 1 < self.order => {
                    untried[place & 31] = left;
                    used = with_vertex;
                    place += 1;
                    left = self.blocks[place & 31] & !used;
                }
                Line::GoesOn | Line::Lost => {}
            }
        }
    }
}
