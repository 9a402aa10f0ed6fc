//! Random texts for chartresume, from a seed.

use super::images::{damage_image, saved};
use super::{calls, damage_line, graph, spread, Random};
use crate::machine::{Call, Graph, Machine, Types};
use crate::{page, text};

fn machine(start: Graph) -> Machine {
    Machine::new(text::CAPACITIES, Types { rows: text::ROWS.to_vec() }, start)
}

fn lines(calls: &[Call]) -> Vec<u8> {
    calls.iter().flat_map(|c| format!("{} {} {} {} {}\n", c[0], c[1], c[2], c[3], c[4]).into_bytes()).collect()
}

/// A first list for chartrun and a second one that goes on behind it, together at most 998 calls; and whether the first
/// ends at bench 0.
pub fn two_lists(seed: u64) -> (Vec<u8>, Vec<u8>, bool) {
    let mut r = Random::new(seed ^ 0x746f_6461);
    let (first, second) = match r.under(8) {
        0 => (0, r.under(300)),
        1 => (r.under(300), 0),
        2 => (499, 499),
        _ => (r.between(1, 300), r.between(1, 200)),
    };
    let first = calls(&mut r, machine(Graph::default()), first, false);
    let mut tonight = machine(Graph::default());
    for call in &first {
        tonight.call(*call);
    }
    let second = calls(&mut r, machine(tonight.present().clone()), second, false);
    (lines(&first), lines(&second), tonight.bench == 0)
}

/// A text for chartresume, sound or damaged.
pub fn resume_text(seed: u64) -> Vec<u8> {
    let mut r = Random::new(seed ^ 0x7265_7375);
    let limits = text::CAPACITIES;
    let types = text::ROWS.len() as u32;
    let most = if r.once_in(20) { (limits.vertices, limits.edges) } else { (spread(&mut r, 40), spread(&mut r, 90)) };
    let start = graph(&mut r, limits, types, most, false);
    let mut kept = start.clone();
    // Now and then a type is one too large.
    if let Some(v) = kept.vertices.first_mut().filter(|_| r.once_in(8)) {
        v.ty = types;
    }
    let mut words = saved(&mut r, &kept);
    if r.once_in(4) {
        damage_image(&mut r, &mut words);
    }
    let mut input = page::line(&words);
    if r.once_in(8) {
        damage_line(&mut r, &mut input);
    }
    let count = match r.under(8) {
        0 => 0,
        1 => r.one_of(&[999, 1_000, 1_001]),
        _ => r.between(1, 120),
    };
    let mut list = lines(&calls(&mut r, machine(start), count, false));
    match r.under(12) {
        0 => {
            list.pop();
        }
        1 => list.extend(b"1 1 0 7 0"),
        2 => list.push(b'\n'),
        3 => list.resize(r.one_of(&[59_999, 60_000, 60_001, 70_000]), r.one_of(b"\n0 ")),
        4 => {
            let at = r.under(list.len() + 1);
            list.insert(at, r.one_of(b"\n0 x"));
        }
        _ => {}
    }
    input.extend(list);
    if r.once_in(20) {
        let keep = r.under(input.len() + 1);
        input.truncate(keep);
    }
    input
}
