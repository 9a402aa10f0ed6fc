//! Lists of several stores.

use super::{call, damage_image, graph, kind, rows, saved, size_of, Random, Size};
use crate::machine::{Call, Capacities, Machine, Types};
use crate::run::{image_room, Case};
use crate::stores::Several;

/// The list of a seed: one to eight stores in turn, alone for a while or not, with a limit that is often too small for all.
pub fn several(seed: u64) -> Several {
    let mut r = Random::new(seed ^ 0x5eed_5704);
    let size = size_of(seed);
    let k = if size == Size::Full { r.between(2, 3) } else { r.between(1, 8) };
    let capacities = match size {
        Size::Small => Capacities { vertices: r.between(1, 9) as u32, edges: r.between(1, 12) as u32, changes: r.between(1, 40) as u32 },
        Size::Full => Capacities { vertices: 1_000, edges: 4_000, changes: 20_000 },
        _ => Capacities { vertices: r.between(4, 20) as u32, edges: r.between(8, 40) as u32, changes: r.between(100, 3_000) as u32 },
    };
    let rows = rows(&mut r);
    let types = Types { rows: rows.clone() };
    let (mut starts, mut machines) = (vec![], vec![]);
    for _ in 0..k {
        let most = if size == Size::Full { (300, 900) } else { (r.one_of(&[0, 5, 9]), r.one_of(&[0, 6, 12])) };
        let g = graph(&mut r, capacities, rows.len() as u32, most, false);
        starts.push(saved(&mut r, &g));
        machines.push(Machine::new(capacities, types.clone(), g));
    }
    let all = k as u32 * capacities.changes;
    let limit = match r.under(8) {
        0 => u32::MAX,
        1 => all,
        2 => capacities.changes,
        3 => 0,
        4 => r.between(1, 4) as u32,
        _ => r.under(all as usize + 1) as u32,
    };
    let count = match size {
        Size::Small => r.one_of(&[0, 5, 40, 120, 250]),
        Size::Full => 120,
        _ => 3_000,
    };
    let calls = woven(&mut r, &mut machines, limit, count);
    let mut case = Case::new(capacities, &rows, &[]);
    case.answers = 2 * (calls.len() / 6) + r.one_of(&[0, 0, 3]);
    case.calls = calls;
    // Parts that are no multiple of a row, and words behind the last.
    case.vertices = k * (case.vertices + r.under(8)) + r.under(k);
    case.edges = k * (case.edges + r.under(12)) + r.under(k);
    case.journal = k * (case.journal + r.under(12)) + r.under(k);
    case.image = k * (image_room(capacities) + r.one_of(&[0, 0, 1, 9])) + r.under(k);
    let mut several = Several { case, stores: k as u32, limit };
    if r.once_in(4) {
        for _ in 0..r.one_of(&[1, 1, 1, 2]) {
            damage(&mut r, &mut several, &mut starts);
        }
    }
    several.case.start = starts.concat();
    several
}

/// Calls of six words made beside the machines.
fn woven(r: &mut Random, machines: &mut [Machine], limit: u32, count: usize) -> Vec<u32> {
    let k = machines.len();
    let mut list = vec![];
    let stretch = r.one_of(&[1, 2, 6, 40]);
    let (mut store, mut mood) = (0, 0);
    for _ in 0..count {
        if r.once_in(stretch) {
            (store, mood) = (r.under(k), r.under(6));
        }
        if r.once_in(25) {
            // No store, with a kind that there is or not.
            list.extend([r.one_of(&[0, k as u32 + 1, 9, u32::MAX]), r.one_of(&[1, 7, 19, 51, 99]), 1, 0, 0, 0]);
            continue;
        }
        let spent: u32 = machines.iter().map(Machine::spent).sum();
        let machine = &mut machines[store];
        machine.joint = limit - spent;
        let call = match ahead(r, machine) {
            Some(call) => call,
            None => {
                let kind = kind(r, machine, mood, 200);
                call(r, machine, kind)
            }
        };
        machine.call(call);
        list.push(store as u32 + 1);
        list.extend(call);
    }
    list
}

/// Where there are steps ahead, mostly a call that goes there, so that they are not cut.
fn ahead(r: &mut Random, machine: &Machine) -> Option<Call> {
    if machine.place == machine.steps.len() || r.once_in(3) {
        return None;
    }
    let marks: Vec<u32> = machine.marks.iter().filter(|mark| *mark.1 > machine.place).map(|mark| *mark.0).collect();
    let mark = if marks.is_empty() { None } else { Some(r.one_of(&marks)) };
    Some(match (r.under(4), mark) {
        (0, _) => [19, 0, 0, 0, 0],
        (1, Some(mark)) => match machine.names.get(&mark) {
            Some([one, two]) => [57, *one, *two, 0, 0],
            None => [56, mark, r.between(1, 9) as u32, 1, 0],
        },
        (2, Some(mark)) => [21, mark, 0, 0, 0],
        _ => [20, 0, 0, 0, 0],
    })
}

/// Something that mostly gets the list refused.
fn damage(r: &mut Random, several: &mut Several, starts: &mut Vec<Vec<u32>>) {
    // A second damage may find any number of stores; slices are made for a few.
    let k = several.stores.min(9) as usize;
    let case = &mut several.case;
    let more = r.between(1, 7);
    match r.under(12) {
        0 => several.stores = r.one_of(&[0, 9, 255, u32::MAX, several.stores.wrapping_add(1)]),
        1 => case.calls.extend(r.junk(more.min(5))),
        2 => case.answers = case.answers.saturating_sub(5),
        3 => case.image = case.image.saturating_sub(r.between(1, 10)),
        4 => starts.push(r.junk(more)),
        5 => {
            starts.pop();
        }
        6 => match r.under(6) {
            0 => case.vertices = r.under(8 * k.max(1)),
            1 => case.edges = r.under(12 * k.max(1)),
            2 => case.journal = r.under(12 * k.max(1)),
            3 => case.vertices = k * 8 * r.between(1_000, 1_001) + r.under(k.max(1)),
            4 => case.edges = k * 12 * r.between(4_000, 4_001),
            _ => case.journal = k * 12 * r.between(20_000, 20_001),
        },
        7 => case.rows.push(1 << 63),
        8 => {
            // Words left over behind one that is bad.
            if let Some(last) = starts.last_mut().filter(|last| last.len() > 6) {
                last[6] = 0;
            }
            starts.push(r.junk(more));
        }
        _ => {
            if !starts.is_empty() {
                let which = r.under(starts.len());
                damage_image(r, &mut starts[which]);
            }
        }
    }
}
