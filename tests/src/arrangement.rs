//! Arrangements: 32 numbers, p(i) at index i - 1, zero after place n.

use crate::graph::{Graph, MOST, Refusal};
use crate::pairs::pairs;

pub type Arrangement = [u8; 32];

/// The arrangement that lists these vertices.
pub fn listed(vertices: &[u32]) -> Arrangement {
    let mut p = [0; 32];
    for (slot, &vertex) in p.iter_mut().zip(vertices) {
        *slot = vertex as u8;
    }
    p
}

/// The vertex at place i.
pub fn vertex_at(p: &Arrangement, i: u32) -> u32 {
    u32::from(p[i as usize - 1])
}

/// Whether p uses each of 1..n once and is zero after place n.
pub fn is_reordering(order: u32, p: &Arrangement) -> bool {
    let places_of = |v| (1..=order).filter(|&i| vertex_at(p, i) == v).count();
    (1..=order).all(|v| places_of(v) == 1) && (order + 1..=MOST).all(|i| vertex_at(p, i) == 0)
}

/// Whether p is a reordering and each p(i) lies in the block of i.
pub fn permitted(graph: &Graph, p: &Arrangement) -> bool {
    is_reordering(graph.order, p)
        && (1..=graph.order).all(|i| graph.block(vertex_at(p, i)) == graph.block(i))
}

/// The graph whose entry (i,j) is the given one's at (p(i),p(j)); refusals 8, 11.
pub fn relabel(graph: &Graph, p: &Arrangement) -> Result<Graph, Refusal> {
    if !graph.well_formed() {
        return Err(Refusal::plain(8));
    }
    if permitted(graph, p) { Ok(relabelled(graph, p)) } else { Err(Refusal::plain(11)) }
}

/// The same for a graph that is well formed and a p that is permitted.
pub fn relabelled(graph: &Graph, p: &Arrangement) -> Graph {
    let mut relabelled = Graph { starts: graph.starts, ..Graph::empty(graph.order) };
    for (i, j) in pairs(graph.order) {
        relabelled.put(i, j, graph.at(vertex_at(p, i), vertex_at(p, j)));
    }
    relabelled
}

/// Refusal 2 for the order, then 11 for what isn't a reordering.
fn checked(order: u32, arrangements: &[&Arrangement]) -> Result<(), Refusal> {
    if !(1..=MOST).contains(&order) {
        return Err(Refusal { number: 2, place: u64::from(order) });
    }
    if arrangements.iter().all(|p| is_reordering(order, p)) {
        Ok(())
    } else {
        Err(Refusal::plain(11))
    }
}

/// The arrangement with p(q(i)) at i; refusals 2, 11.
pub fn compose(order: u32, p: &Arrangement, q: &Arrangement) -> Result<Arrangement, Refusal> {
    checked(order, &[p, q])?;
    let vertices: Vec<u32> = (1..=order).map(|i| vertex_at(p, vertex_at(q, i))).collect();
    Ok(listed(&vertices))
}

/// The arrangement that undoes p; refusals 2, 11.
pub fn invert(order: u32, p: &Arrangement) -> Result<Arrangement, Refusal> {
    checked(order, &[p])?;
    let mut inverse = [0; 32];
    for i in 1..=order {
        inverse[vertex_at(p, i) as usize - 1] = i as u8;
    }
    Ok(inverse)
}

/// Every permitted arrangement in dictionary order.
pub fn all_permitted(graph: &Graph) -> Vec<Arrangement> {
    fn extend(graph: &Graph, beginning: &mut Vec<u32>, found: &mut Vec<Arrangement>) {
        let place = beginning.len() as u32 + 1;
        if place > graph.order {
            found.push(listed(beginning));
            return;
        }
        for vertex in 1..=graph.order {
            if !beginning.contains(&vertex) && graph.block(vertex) == graph.block(place) {
                beginning.push(vertex);
                extend(graph, beginning, found);
                beginning.pop();
            }
        }
    }
    let mut found = Vec::new();
    extend(graph, &mut Vec::new(), &mut found);
    found
}
