//! Random words and texts for pages, from a seed.

use super::images::{damage_image, saved};
use super::{damage_line, graph, spread, Random};
use crate::machine::{Capacities, Graph, Reading};
use crate::page;

/// Words for a page, old or new, sound or damaged, and the bytes of the page.
pub fn page(seed: u64) -> (Vec<u32>, usize) {
    let mut r = Random::new(seed ^ 0x7061_6765);
    let full = seed % 500 == 499;
    let limits = page::CAPACITIES;
    let vertices = if full { limits.vertices } else { spread(&mut r, 60) };
    let edges = if full { limits.edges } else { spread(&mut r, 150) };
    // Now and then a type, a number or both may be one too large.
    let beyond = r.once_in(8) as u32;
    let exactly = full || r.once_in(2);
    let mut g = graph(&mut r, Capacities { vertices, edges, changes: 1 }, page::TYPES + beyond, (vertices, edges), exactly);
    let up = |r: &mut Random, limit: u32, most: u32| if r.once_in(2) { r.under((limit - most) as usize + 1) as u32 } else { limit - most };
    raise(&mut g, up(&mut r, limits.vertices + beyond, vertices), up(&mut r, limits.edges + beyond, edges));
    for e in &mut g.edges {
        if let Reading::Heard(decimetres) = &mut e.reading {
            *decimetres = spread(&mut r, 10_000) - 1;
        }
    }
    let mut words = saved(&mut r, &g);
    if r.once_in(3) {
        damage_image(&mut r, &mut words);
    }
    let rows = page::ROW * g.edges.len();
    let room = match r.under(6) {
        0 => rows.saturating_sub(1),
        1 => r.under(rows + 1),
        2 => 0,
        3 => rows + r.between(1, 60),
        _ => rows,
    };
    (words, room)
}

/// Larger numbers for all vertices and edges.
fn raise(g: &mut Graph, vertices: u32, edges: u32) {
    for v in &mut g.vertices {
        v.number += vertices;
        v.list.iter_mut().for_each(|w| *w += 2 * edges);
    }
    for e in &mut g.edges {
        e.number += edges;
        e.alpha += vertices;
        e.omega += vertices;
    }
}

/// A text for chartpage, sound or damaged.
pub fn image_text(seed: u64) -> Vec<u8> {
    let mut r = Random::new(seed ^ 0x696d_6167);
    let words = if r.once_in(8) { r.junk(seed as usize % 50) } else { page(seed).0 };
    let mut line = page::line(&words);
    if r.once_in(2) {
        damage_line(&mut r, &mut line);
    }
    match r.under(20) {
        0 => {
            line.pop();
        }
        1 => line.extend(page::line(&words)),
        2 => line.push(r.one_of(b"\n 0")),
        3 => {
            let keep = r.under(line.len() + 1);
            line.truncate(keep);
        }
        4 => line.resize(r.one_of(&[399_999, 400_000, 400_001, 500_000]), r.one_of(b"\n0 ")),
        _ => {}
    }
    line
}
