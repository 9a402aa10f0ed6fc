//! Orders wanted of a chart, right and wrong, from a seed.

use super::images::{damage_image, saved};
use super::{graph, spread, Random};
use crate::machine::{Capacities, Graph};
use crate::order::{Items, Order};
use crate::page::{CAPACITIES, TYPES};

/// A chart and one of its vertices; 0 where it has none.
fn chart(r: &mut Random, seed: u64) -> (Graph, u32) {
    let full = seed % 500 == 499;
    let vertices = if full { CAPACITIES.vertices } else { spread(r, 60) };
    let edges = if full { CAPACITIES.edges } else { spread(r, 150) };
    // Numbers that leave gaps, and now and then those at the limits.
    let near = if r.once_in(20) { CAPACITIES } else { Capacities { vertices: 60, edges: 150, changes: 1 } };
    let capacities = if full { CAPACITIES } else { near };
    let exactly = full || r.once_in(2);
    let g = graph(r, capacities, TYPES, (vertices, edges), exactly);
    let vertex = if g.vertices.is_empty() { 0 } else { g.vertices[r.under(g.vertices.len())].number };
    (g, vertex)
}

/// An order that is there to be had, on a list with room; nothing for a list of a chart without vertices.
pub fn right_order(seed: u64, which: usize) -> Option<Order> {
    let (order, g) = drawn(&mut Random::new(seed ^ 0x6f72_6465 ^ (which as u64) << 40), seed, which);
    order.items.of(&g).map(|_| order)
}

/// The order and its chart.
fn drawn(r: &mut Random, seed: u64, which: usize) -> (Order, Graph) {
    let (g, vertex) = chart(r, seed);
    let items = [Items::Vertices, Items::Edges, Items::List(vertex)][which];
    let mut wanted = items.of(&g).unwrap_or_default();
    match r.under(4) {
        // As it stands, or with two items exchanged.
        0 if r.once_in(4) => {}
        0 if wanted.len() > 1 => {
            let (i, j) = (r.under(wanted.len()), r.under(wanted.len()));
            wanted.swap(i, j);
        }
        1 => wanted.reverse(),
        _ => r.shuffle(&mut wanted),
    }
    let room = 5 * wanted.len().saturating_sub(1) + r.one_of(&[0, 0, 1, 4, 30]);
    (Order { words: saved(r, &g), items, wanted, room }, g)
}

/// An order with something wrong, or nearly.
pub fn wrong_order(seed: u64, which: usize) -> Order {
    let mut r = Random::new(seed ^ 0x7772_6f6e ^ (which as u64) << 40);
    let (mut order, g) = drawn(&mut r, seed, which);
    for _ in 0..r.one_of(&[1, 1, 1, 2, 3]) {
        let other = other(&mut r, &g, &order.wanted);
        let Order { words, items, wanted, room } = &mut order;
        match r.under(12) {
            0 | 1 => damage_image(&mut r, words),
            2 if !wanted.is_empty() => {
                wanted.remove(r.under(wanted.len()));
            }
            3 => wanted.insert(r.under(wanted.len() + 1), other),
            4..=6 if !wanted.is_empty() => {
                let at = r.under(wanted.len());
                wanted[at] = other;
            }
            7 => wanted.clear(),
            8 | 9 if which == 2 => {
                let first = g.vertices.first().map_or(0, |v| v.number);
                *items = Items::List(r.one_of(&[0, 1, 61, 1_000, 1_001, u32::MAX, first]));
            }
            _ => {
                let due = 5 * wanted.len().saturating_sub(1);
                let any = r.under(due + 1);
                *room = r.one_of(&[due.saturating_sub(1), due.saturating_sub(5), 0, due, any]);
            }
        }
    }
    order
}

/// A word to stand among those wanted.
fn other(r: &mut Random, g: &Graph, wanted: &[u32]) -> u32 {
    let some = |r: &mut Random, words: &[u32]| if words.is_empty() { 0 } else { r.one_of(words) };
    match r.under(7) {
        0 => 0,
        1 => r.word(),
        2 => some(r, wanted) ^ 1,
        3 => some(r, wanted).wrapping_add(1),
        4 => r.one_of(&[1_000, 1_001, 4_000, 4_001, 8_000, 8_001, 8_002, u32::MAX]),
        // A word of some list.
        5 => g.vertices.last().map_or(1, |v| some(r, &v.list)),
        _ => some(r, wanted),
    }
}
