//! Judging with row masks: the same answers as `judge_plain`, for every order.

use crate::board::{Board, Found};
use crate::clause;
use crate::graph::{Graph, Refusal};
use crate::masks::below;
use crate::pairs::{BY_COLUMNS, BY_ROWS, pair_count};
use crate::verdict::{Judgement, Verdict};

/// The rows with columns for rows.
fn transposed(rows: &[u32; 32]) -> [u32; 32] {
    let mut rows = *rows;
    let mut width = 16;
    let mut mask = 0x0000_FFFFu32;
    while width != 0 {
        for row in (0..32).filter(|row| row & width == 0) {
            let swapped = (rows[row] >> width ^ rows[row + width]) & mask;
            rows[row] ^= swapped << width;
            rows[row + width] ^= swapped;
        }
        width >>= 1;
        mask ^= mask << width;
    }
    rows
}

/// Whether the value is a graph; `Graph::well_formed` with masks.
pub fn well_formed(graph: &Graph) -> bool {
    if !(1..=32).contains(&graph.order) {
        return false;
    }
    let inside = below(graph.order as usize);
    let rows_fit = (0..32).all(|row| {
        let allowed = if inside >> row & 1 == 1 { inside & !(1 << row) } else { 0 };
        let (edges, unknowns) = (graph.edges[row], graph.unknowns[row]);
        (edges | unknowns) & !allowed == 0 && edges & unknowns == 0
    });
    rows_fit
        && graph.starts & 1 == 1
        && graph.starts & !inside == 0
        && transposed(&graph.edges) == graph.edges
        && transposed(&graph.unknowns) == graph.unknowns
}

/// The search of a mode, on a graph that is well formed.
fn search(graph: &Graph, mode: u32, budget: u32) -> Found {
    let board = Board::new(graph);
    match (mode, graph.fully_drawn()) {
        (BY_COLUMNS, true) => board.search_by_columns::<true>(budget),
        (BY_COLUMNS, false) => board.search_by_columns::<false>(budget),
        (_, true) => board.search_by_rows::<true>(budget),
        (_, false) => board.search_by_rows::<false>(budget),
    }
}

/// Judges a graph; refusals 16, 8, 5. Only "smaller" writes to the buffer.
pub fn judge(graph: &Graph, mode: u32, budget: u32, buffer: &mut [i32]) -> Judgement {
    let refused = |number| Judgement::without(Verdict::Refused(Refusal::plain(number)));
    if mode != BY_ROWS && mode != BY_COLUMNS {
        return refused(16);
    }
    if !well_formed(graph) {
        return refused(8);
    }
    if buffer.len() < pair_count(graph.order) as usize {
        return refused(5);
    }
    match search(graph, mode, budget) {
        Found::Cut => Judgement::without(Verdict::Cut { steps: budget }),
        Found::Nothing { steps } => Judgement::without(Verdict::Nothing { steps }),
        Found::Won { vertices, row, column, steps } => {
            let literals = clause::write(graph, mode, &vertices, (row, column), buffer);
            let mut arrangement = [0; 32];
            for place in 0..graph.order as usize {
                arrangement[place] = vertices[place] + 1;
            }
            let verdict =
                Verdict::Smaller { row: row as u32 + 1, column: column as u32 + 1, steps };
            Judgement { verdict, arrangement, literals }
        }
    }
}
