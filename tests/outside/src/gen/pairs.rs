//! Random pairs of images, from a seed.

use super::images::{damage_image, saved};
use super::{graph, reading, spread, Random};
use crate::machine::{Capacities, Graph, Reading};
use crate::page;

/// Two images, mostly of one path, old or new, sound or damaged, and a tolerance.
pub fn pair(seed: u64) -> (Vec<u32>, Vec<u32>, u32) {
    let mut r = Random::new(seed ^ 0x7061_6972);
    let full = seed % 500 == 250;
    let limits = page::CAPACITIES;
    let vertices = if full { limits.vertices } else { spread(&mut r, 30) };
    let edges = if full { limits.edges } else { spread(&mut r, 60) };
    let exactly = full || r.once_in(2);
    let drawn = |r: &mut Random| graph(r, Capacities { vertices, edges, changes: 1 }, page::TYPES, (vertices, edges), exactly);
    let one = drawn(&mut r);
    let mut two = if r.once_in(8) { drawn(&mut r) } else { one.clone() };
    vary(&mut r, &mut two);
    let mut words = [saved(&mut r, &one), saved(&mut r, &two)];
    if r.once_in(2) {
        words.swap(0, 1);
    }
    for words in &mut words {
        if r.once_in(6) {
            damage_image(&mut r, words);
        }
    }
    let tolerance = match r.under(6) {
        0 => r.one_of(&[9_998, 9_999, u32::MAX]),
        1 => spread(&mut r, 10_000) - 1,
        _ => r.under(4) as u32,
    };
    let [one, two] = words;
    (one, two, tolerance)
}

/// Other readings, ends the other way round, another omega, edges gone, another order.
fn vary(r: &mut Random, g: &mut Graph) {
    for i in (0..g.edges.len()).rev() {
        let e = &mut g.edges[i];
        let n = e.number;
        match (r.under(10), e.reading) {
            (0, _) => e.reading = reading(r),
            (1..=4, Reading::Heard(d)) => e.reading = Reading::Heard((d + r.under(9) as u32).saturating_sub(4).min(9_999)),
            (5, _) => {
                (e.alpha, e.omega) = (e.omega, e.alpha);
                g.vertices.iter_mut().flat_map(|v| &mut v.list).filter(|w| **w / 2 == n).for_each(|w| *w ^= 1);
            }
            (6, _) => {
                let to = r.under(g.vertices.len());
                e.omega = g.vertices[to].number;
                g.vertices.iter_mut().for_each(|v| v.list.retain(|w| *w != 2 * n + 1));
                g.vertices[to].list.push(2 * n + 1);
            }
            (7, _) => {
                g.edges.remove(i);
                g.vertices.iter_mut().for_each(|v| v.list.retain(|w| w / 2 != n));
            }
            _ => {}
        }
    }
    if r.once_in(2) {
        r.shuffle(&mut g.edges);
    }
}
