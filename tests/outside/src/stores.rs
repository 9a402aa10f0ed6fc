//! Several stores in one run: as many plain machines, and one limit on what all of them remember (REFERENCE 21).

use crate::examples::{SEVEN_IMAGE, SEVEN_OLD};
use crate::image;
use crate::machine::{Call, Capacities, Graph, Machine, Types};
use crate::run::{image_room, Case, Outcome};

/// What is lent to a run of several stores; calls have six words. Lengths are of whole tables.
#[derive(Clone, PartialEq, Eq, Debug)]
pub struct Several {
    pub case: Case,
    pub stores: u32,
    pub limit: u32,
}

#[derive(Clone, PartialEq, Eq, Debug)]
pub enum Ended {
    /// The code and the number after it.
    Refused(u32, usize),
    /// The words that answers begin with, and those that each part of the image does.
    Done { answers: Vec<u32>, images: Vec<Vec<u32>> },
}

/// A call of a store, counted from 0, the joint room before it, and its answer.
pub struct Turn {
    pub store: usize,
    pub room: u32,
    pub call: Call,
    pub answer: (u32, u32),
}

/// What the limit leaves to all machines.
fn joint_room(limit: u32, machines: &[Machine]) -> u32 {
    limit.checked_sub(machines.iter().map(Machine::spent).sum()).expect("no more is spent than the limit allows")
}

/// Each image at the front of its part, all other words as they were.
pub fn over_parts(images: &[Vec<u32>], before: &[u32]) -> Vec<u32> {
    let mut words = before.to_vec();
    let part = before.len() / images.len();
    for (i, image) in images.iter().enumerate() {
        words[i * part..i * part + image.len()].copy_from_slice(image);
    }
    words
}

impl Several {
    /// What a part of each table gives. There is at least one store.
    pub fn capacities(&self) -> Capacities {
        let part = |words: usize, row: usize| (words / self.stores as usize / row) as u32;
        Capacities { vertices: part(self.case.vertices, 8), edges: part(self.case.edges, 12), changes: part(self.case.journal, 12) }
    }

    /// The start images in turn; how long each is, its sixth word tells. Words left over come last.
    fn starts(&self, c: Capacities) -> Result<Vec<Graph>, (u32, usize)> {
        let (start, types) = (&self.case.start, self.case.rows.len() as u32);
        let (mut at, mut graphs) = (0, vec![]);
        for _ in 0..self.stores {
            let rest = &start[at..];
            let told = rest.get(5).map_or(0, |word| *word as usize);
            let words = &rest[..told.min(rest.len())];
            let Some(graph) = image::load(words, c, types) else {
                let bad = image::bad(words, c, types).expect("words that do not load have a bad one");
                return Err(if bad.code() == 105 { (105, 0) } else { (bad.code(), at + bad.number()) });
            };
            graphs.push(graph);
            at += words.len();
        }
        if at < start.len() {
            return Err((105, 0));
        }
        Ok(graphs)
    }

    /// The stores before the first call, or the first code in turn that applies.
    pub fn machines(&self) -> Result<Vec<Machine>, (u32, usize)> {
        let case = &self.case;
        let n = case.rows.len();
        if case.calls.len() % 6 != 0 {
            return Err((101, 0));
        }
        if case.answers < 2 * (case.calls.len() / 6) {
            return Err((102, 0));
        }
        if !(1..=8).contains(&self.stores) {
            return Err((103, 0));
        }
        let c = self.capacities();
        if !(1..=1_000).contains(&c.vertices) || !(1..=4_000).contains(&c.edges) || !(1..=20_000).contains(&c.changes) {
            return Err((103, 0));
        }
        if n == 0 || n > 64 || case.rows.iter().any(|row| (n..64).any(|bit| row >> bit & 1 == 1)) {
            return Err((104, 0));
        }
        let graphs = self.starts(c)?;
        if case.image / (self.stores as usize) < image_room(c) {
            return Err((106, 0));
        }
        Ok(graphs.into_iter().map(|g| Machine::new(c, Types { rows: case.rows.clone() }, g)).collect())
    }

    /// One call of six words: its code and number, and the turn where there is such a store.
    fn call(&self, machines: &mut [Machine], words: &[u32]) -> ((u32, u32), Option<Turn>) {
        let call: Call = words[1..].try_into().unwrap();
        let room = joint_room(self.limit, machines);
        let store = (words[0] as usize).wrapping_sub(1);
        let Some(machine) = machines.get_mut(store) else { return ((21, 0), None) };
        machine.joint = room;
        let answer = machine.call(call);
        (answer, Some(Turn { store, room, call, answer }))
    }

    pub fn run(&self) -> Ended {
        let mut machines = match self.machines() {
            Ok(machines) => machines,
            Err((code, number)) => return Ended::Refused(code, number),
        };
        let mut answers = vec![];
        for words in self.case.calls.chunks(6) {
            let (code, number) = self.call(&mut machines, words).0;
            answers.extend([code, number]);
        }
        Ended::Done { answers, images: machines.iter().map(|m| image::save(m.present())).collect() }
    }

    /// The calls of all stores that are there, in their order; none where the list is refused.
    pub fn turns(&self) -> Vec<Turn> {
        let mut machines = self.machines().unwrap_or_default();
        let calls = if machines.is_empty() { &[] } else { &self.case.calls[..] };
        calls.chunks(6).filter_map(|words| self.call(&mut machines, words).1).collect()
    }

    /// A list of one store as a list of several; the limit is its capacity.
    pub fn alone(case: &Case) -> Several {
        let calls = case.calls.chunks_exact(5);
        let rest = calls.remainder();
        let calls = calls.flat_map(|call| [&[1], call].concat()).chain(rest.iter().copied()).collect();
        Several { case: Case { calls, ..case.clone() }, stores: 1, limit: case.capacities().changes }
    }

    /// Whether words stand behind the first start image.
    pub fn left_over(case: &Case) -> bool {
        case.start.get(5).is_some_and(|told| (*told as usize) < case.start.len())
    }
}

impl Ended {
    /// The same of one store.
    pub fn one(self) -> Outcome {
        match self {
            Ended::Refused(code, number) => Outcome::Refused(code, number),
            Ended::Done { answers, mut images } => Outcome::Done { answers, image: images.swap_remove(0) },
        }
    }
}

/// The calls of REFERENCE 21.11 with their answers: two stores, a limit of 3.
pub const SHARED: [([u32; 6], (u32, u32)); 15] = [
    ([1, 7, 1, 1, 0, 0], (0, 1)),
    ([2, 1, 1, 0, 5, 0], (0, 1)),
    ([1, 51, 0, 0, 0, 0], (0, 1)),
    ([1, 7, 1, 2, 0, 0], (0, 1)),
    ([2, 51, 0, 0, 0, 0], (0, 0)),
    ([2, 1, 2, 0, 0, 0], (10, 0)),
    ([1, 19, 0, 0, 0, 0], (0, 1)),
    ([2, 1, 2, 0, 0, 0], (0, 1)),
    ([1, 20, 0, 0, 0, 0], (10, 0)),
    ([1, 51, 0, 0, 0, 0], (0, 0)),
    ([2, 19, 0, 0, 0, 0], (0, 1)),
    ([1, 20, 0, 0, 0, 0], (0, 1)),
    ([3, 51, 0, 0, 0, 0], (21, 0)),
    ([0, 99, 0, 0, 0, 0], (21, 0)),
    ([1, 99, 0, 0, 0, 0], (1, 0)),
];

/// A mark ahead, by its number and by its name, while the other store has the room; both have the mark and the name.
pub const AHEAD: [([u32; 6], (u32, u32)); 18] = [
    ([1, 7, 1, 1, 0, 0], (0, 1)),
    ([1, 2, 3, 0, 0, 0], (0, 1)),
    ([1, 17, 5, 0, 0, 0], (0, 0)),
    ([1, 56, 5, 7, 8, 0], (0, 0)),
    ([1, 19, 0, 0, 0, 0], (0, 1)),
    ([2, 17, 5, 0, 0, 0], (0, 0)),
    ([2, 56, 5, 7, 8, 0], (0, 0)),
    ([2, 1, 1, 0, 0, 0], (0, 1)),
    ([2, 1, 2, 0, 0, 0], (0, 1)),
    ([1, 21, 5, 0, 0, 0], (10, 0)),
    ([1, 57, 7, 8, 0, 0], (10, 0)),
    // Back is always open, and what alters nothing needs no room.
    ([1, 19, 0, 0, 0, 0], (0, 1)),
    ([1, 7, 1, 0, 0, 0], (0, 0)),
    ([1, 21, 5, 0, 0, 0], (10, 0)),
    ([1, 50, 0, 0, 0, 0], (0, 1)),
    ([2, 57, 7, 8, 0, 0], (0, 2)),
    ([1, 57, 7, 8, 0, 0], (0, 2)),
    ([1, 51, 0, 0, 0, 0], (0, 1)),
];

/// Seven with its old words and the empty graph, capacities 10, 10, 20 each, one row 0, and a limit of 3.
pub fn two(calls: &[([u32; 6], (u32, u32))]) -> Several {
    let case = Case {
        start: [&SEVEN_OLD[..], &[0, 0, 6, 6, 6, 6]].concat(),
        rows: vec![0],
        calls: calls.iter().flat_map(|c| c.0).collect(),
        vertices: 160,
        edges: 240,
        journal: 480,
        answers: 2 * calls.len(),
        image: 252,
    };
    Several { case, stores: 2, limit: 3 }
}

/// Lists that are refused, each with its code and number: the one above with something else.
pub fn refused() -> Vec<(&'static str, Several, u32, usize)> {
    let other = |change: &dyn Fn(&mut Several)| {
        let mut several = two(&SHARED);
        change(&mut several);
        several
    };
    let bad = [1, 0, 6, 9, 9, 9, 0, 0, 0];
    vec![
        ("a bad record in the second", other(&|s| s.case.start.splice(74.., bad).for_each(drop)), 108, 80),
        ("a bad record in the second, behind new words", other(&|s| s.case.start = [&SEVEN_IMAGE[..], &bad].concat()), 108, 84),
        ("both bad: the first is told", other(&|s| s.case.start = [&bad[..], &bad].concat()), 108, 6),
        ("a bad list in the first", other(&|s| s.case.start[73] = 2), 109, 73),
        (
            "a bad list in the second",
            other(&|s| {
                s.case.start.rotate_left(74);
                s.case.start[79] = 2;
            }),
            109,
            79,
        ),
        ("a bad record in the second and a word left over", other(&|s| s.case.start.splice(74.., [&bad[..], &[0]].concat()).for_each(drop)), 108, 80),
        ("a word left over", other(&|s| s.case.start.push(0)), 105, 0),
        ("a third image", other(&|s| s.case.start.extend([0, 0, 6, 6, 6, 6])), 105, 0),
        ("no second image", other(&|s| s.case.start.truncate(74)), 105, 0),
        ("five words of the second", other(&|s| s.case.start.truncate(79)), 105, 0),
        ("a first that says it is longer than all", other(&|s| s.case.start[5] = u32::MAX), 105, 0),
        ("a first that says it is shorter", other(&|s| s.case.start[5] = 73), 105, 0),
        ("a first of no words", other(&|s| s.case.start[5] = 0), 105, 0),
        ("no store", other(&|s| s.stores = 0), 103, 0),
        ("nine stores", other(&|s| s.stores = 9), 103, 0),
        ("as many stores as a word says", other(&|s| s.stores = u32::MAX), 103, 0),
        ("a vertex table of 15 words", other(&|s| s.case.vertices = 15), 103, 0),
        ("an edge table of 23 words", other(&|s| s.case.edges = 23), 103, 0),
        ("a journal of 23 words", other(&|s| s.case.journal = 23), 103, 0),
        ("parts of 1,001 vertices", other(&|s| s.case.vertices = 2 * 8_008), 103, 0),
        ("five words of calls", other(&|s| s.case.calls.truncate(5)), 101, 0),
        ("an answer short by a word", other(&|s| s.case.answers -= 1), 102, 0),
        ("no row", other(&|s| s.case.rows.clear()), 104, 0),
        ("parts of 125 words for the images", other(&|s| s.case.image = 251), 106, 0),
        ("calls and stores", other(&|s| (s.case.calls, s.stores) = (vec![0; 5], 0)), 101, 0),
    ]
}

#[cfg(test)]
mod tests {
    use super::*;

    #[test]
    fn as_worked_by_hand() {
        for calls in [&SHARED[..], &AHEAD] {
            let Ended::Done { answers, .. } = two(calls).run() else { panic!("refused") };
            for (i, (call, answer)) in calls.iter().enumerate() {
                assert_eq!((answers[2 * i], answers[2 * i + 1]), *answer, "call {i}, {call:?}");
            }
        }
        for (name, several, code, number) in refused() {
            assert_eq!(several.run(), Ended::Refused(code, number), "{name}");
        }
    }

    #[test]
    fn words_left_over_by_one_store() {
        let mut case = Case { start: vec![1, 0, 6, 9, 9, 9, 0, 0, 0, 7], ..two(&[]).case };
        assert_eq!(case.run(), Outcome::Refused(105, 0));
        assert_eq!(Several::alone(&case).run(), Ended::Refused(108, 6));
        case.start.pop();
        assert_eq!(case.run(), Outcome::Refused(108, 6));
        assert_eq!(Several::alone(&case).run(), Ended::Refused(108, 6));
    }

    #[test]
    fn limits_of_nothing_and_of_all() {
        let mut several = two(&SHARED);
        several.limit = 0;
        let Ended::Done { answers, images } = several.run() else { panic!("refused") };
        assert_eq!(answers[..4], [10, 0, 10, 0]);
        assert_eq!(images, [SEVEN_IMAGE.to_vec(), vec![0, 0, 6, 6, 6, 6]]);
        several.limit = u32::MAX;
        let Ended::Done { answers, .. } = several.run() else { panic!("refused") };
        assert_eq!(answers[4..6], [0, 19]);
    }
}
