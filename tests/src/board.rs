//! What both searches of `judge` work with. Places, vertices, rows and columns count
//! from 0.

use crate::graph::Graph;
use crate::masks::below;

/// What a search found.
pub enum Found {
    /// A won beginning, filled up to an arrangement, with its winning pair.
    Won { vertices: [u8; 32], row: usize, column: usize, steps: u32 },
    /// Every reached beginning was tried and none is won.
    Nothing { steps: u32 },
    /// The budget was spent first.
    Cut,
}

/// What a search reads: rows of edges, of unknowns and of non-edges, the
/// place's blocks.
pub struct Board<'a> {
    pub order: usize,
    pub edges: &'a [u32; 32],
    pub unknowns: &'a [u32; 32],
    pub non_edges: [u32; 32],
    pub blocks: [u32; 32],
}

impl Board<'_> {
    pub fn new(graph: &Graph) -> Board<'_> {
        let order = graph.order as usize;
        let mut non_edges = [0; 32];
        let mut blocks = [0; 32];
        let mut block = 0;
        for place in 0..order {
            non_edges[place] = !(graph.edges[place] | graph.unknowns[place]);
            if graph.starts >> place & 1 == 1 {
                // From this start up to the next one, or to the order.
                let next = (graph.starts >> place >> 1).trailing_zeros() as usize + place + 1;
                block = below(next.min(order)) & !below(place);
            }
            blocks[place] = block;
        }
        Board { order, edges: &graph.edges, unknowns: &graph.unknowns, non_edges, blocks }
    }

    /// Fills the places from `place` on with the smallest unused vertex of their block.
    pub fn fill(&self, vertices: &mut [u8; 32], place: usize, mut used: u32) {
        let empty = vertices.iter_mut().zip(&self.blocks).take(self.order).skip(place);
        for (slot, block) in empty {
            let vertex = (block & !used).trailing_zeros();
            *slot = vertex as u8;
            used |= 1 << vertex;
        }
    }
}

/// What the walk along a row or a column comes to: won at a place of it, lost, or
/// neither.
pub enum Line {
    Won(usize),
    Lost,
    GoesOn,
}

/// The vertices at the first places, and the place of each vertex that is in use.
pub struct Path {
    pub vertices: [u8; 32],
    pub places: [u8; 32],
}

impl Path {
    pub const EMPTY: Path = Path { vertices: [0; 32], places: [0; 32] };

    pub fn vertex(&self, place: usize) -> usize {
        usize::from(self.vertices[place & 31] & 31)
    }

    pub fn place(&self, vertex: usize) -> usize {
        usize::from(self.places[vertex & 31])
    }
}

/// Two vertices or places as a pair.
pub fn pair_of(x: usize, y: usize) -> (usize, usize) {
    (x.min(y), x.max(y))
}
