//! The search by rows: a reached beginning differs from its shorter ones by the pair
//! (1, k) alone, so a step judges that pair; at length n it walks on through the other
//! rows.

use crate::board::{Board, Found, Line, Path, pair_of};
use crate::masks::{below, is_set};
use crate::pairs::{BY_ROWS, is_before};

impl Board<'_> {
    /// The rest of the walk at length n, from row 2 to the first pair that
    /// decides: that pair, if it wins.
    fn walk_on<const DRAWN: bool>(&self, path: &Path) -> Option<(usize, usize)> {
        for row in 1..self.order {
            let to = path.vertex(row);
            let (mut edges, non_edges) = (self.edges[row] >> row, self.non_edges[to]);
            if !DRAWN && self.unknowns[row] | self.unknowns[to] != 0 {
                match self.walk_row_half_drawn(path, row) {
                    Line::GoesOn => continue,
                    Line::Lost => return None,
                    Line::Won(column) => return Some((row, column)),
                }
            }
            for column in row + 1..self.order {
                edges >>= 1;
                let other = path.vertex(column);
                let is_edge = edges & 1;
                if is_edge == non_edges >> other & 1 {
                    if is_edge == 1 {
                        return Some((row, column));
                    }
                    if pair_of(to, other) != (row, column) {
                        return None;
                    }
                }
            }
        }
        None
    }

    /// The walk along a row where entries are unknown.
    ///
    /// No value is carried along. An unknown entry was driven where it was met at
    /// an earlier pair: to 1 if that was as an image, to 0 if it was as the pair
    /// itself. So an unknown a counts as 1 where the pair whose image this one is
    /// comes before it, and an unknown b as 0 where the image does.
    fn walk_row_half_drawn(&self, path: &Path, row: usize) -> Line {
        let (to, from) = (path.vertex(row), path.place(row));
        for column in row + 1..self.order {
            let other = path.vertex(column);
            if pair_of(to, other) == (row, column) {
                continue;
            }
            let comes_before = |x, y| is_before(BY_ROWS, pair_of(x, y), (row, column));
            let one = is_set(self.edges[row], column)
                || is_set(self.unknowns[row], column) && comes_before(from, path.place(column));
            let zero = is_set(self.non_edges[to], other)
                || is_set(self.unknowns[to], other) && comes_before(to, other);
            match (one, zero) {
                (true, true) => return Line::Won(column),
                (false, false) => return Line::Lost,
                _ => {}
            }
        }
        Line::GoesOn
    }

    /// Whether a counts as 1 at the pair (1, k), k this place, and the vertices that
    /// decide it after this first one: they win where a does, and lose where it
    /// doesn't. Where (1, k) is unknown this depends on the vertices in use.
    fn stops_at(&self, place: usize, first: usize, used: u32) -> (bool, u32) {
        let (own_image, earlier_images) = match first {
            0 => (1 << place, below(place)),
            _ => (u32::from(first == place), u32::from(first < place)),
        };
        let not_zero = self.edges[first] | self.unknowns[first] & !earlier_images;
        let one = is_set(self.edges[0], place)
            || is_set(self.unknowns[0], place) && used & own_image != 0;
        (one, if one { !not_zero } else { not_zero & !own_image })
    }

    /// Tries beginnings in dictionary order until one is won or the budget is spent.
    /// DRAWN says that the graph has no unknowns, and leaves out what these need.
    pub fn search_by_rows<const DRAWN: bool>(&self, budget: u32) -> Found {
        let last = self.order - 1;
        let mut path = Path::EMPTY;
        // By place k: what decides the pair (1, k), and whether a counts as 1 there.
        let mut stops = [0u32; 32];
        let mut ones = self.edges[0];
        let mut untried = [0u32; 32];
        let mut used = 0u32;
        let mut place = 0usize;
        let mut left = self.blocks[0];
        let mut steps = 0u32;
        loop {
            if left == 0 {
                if place == 0 {
                    return Found::Nothing { steps };
                }
                place -= 1;
                used ^= 1 << path.vertex(place);
                left = untried[place & 31];
                continue;
            }
            if steps == budget {
                return Found::Cut;
            }
            steps += 1;
            let vertex = left.trailing_zeros() as usize;
            left &= left - 1;
            path.vertices[place & 31] = vertex as u8;
            if !DRAWN {
                path.places[vertex & 31] = place as u8;
            }

            if is_set(stops[place & 31], vertex) {
                if is_set(ones, place) {
                    self.fill(&mut path.vertices, place + 1, used | 1 << vertex);
                    return Found::Won { vertices: path.vertices, row: 0, column: place, steps };
                }
            } else if place < last {
                untried[place & 31] = left;
                used |= 1 << vertex;
                if place == 0 {
                    for later in 1..self.order {
                        stops[later & 31] = self.stops_at(later, vertex, used).1;
                    }
                }
                place += 1;
                left = self.blocks[place & 31] & !used;
                if !DRAWN && is_set(self.unknowns[0], place) {
                    let (one, deciding) = self.stops_at(place, path.vertex(0), used);
                    ones = ones & !(1 << place) | u32::from(one) << place;
                    stops[place & 31] = deciding;
                }
            } else if let Some((row, column)) = self.walk_on::<DRAWN>(&path) {
                return Found::Won { vertices: path.vertices, row, column, steps };
            }
        }
    }
}
