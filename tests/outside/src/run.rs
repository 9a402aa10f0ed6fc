//! A run on the plain machine: the whole list, or one refusal of it.

use crate::image;
use crate::machine::{Call, Capacities, Graph, Machine, Types};

/// What is lent to a run. Tables, answers and image are given by their lengths in words.
#[derive(Clone, PartialEq, Eq, Debug)]
pub struct Case {
    pub start: Vec<u32>,
    pub rows: Vec<u64>,
    pub calls: Vec<u32>,
    pub vertices: usize,
    pub edges: usize,
    pub journal: usize,
    pub answers: usize,
    pub image: usize,
}

#[derive(Clone, PartialEq, Eq, Debug)]
pub enum Outcome {
    /// The code and the number after it.
    Refused(u32, usize),
    /// The words that answers and image begin with.
    Done { answers: Vec<u32>, image: Vec<u32> },
}

impl Case {
    /// Capacities in rows, all words that the calls need, and the empty graph at the start.
    pub fn new(capacities: Capacities, rows: &[u64], calls: &[Call]) -> Case {
        Case {
            start: image::save(&Graph::default()),
            rows: rows.to_vec(),
            calls: calls.concat(),
            vertices: 8 * capacities.vertices as usize,
            edges: 12 * capacities.edges as usize,
            journal: 12 * capacities.changes as usize,
            answers: 2 * calls.len(),
            image: image_room(capacities),
        }
    }

    pub fn capacities(&self) -> Capacities {
        Capacities { vertices: (self.vertices / 8) as u32, edges: (self.edges / 12) as u32, changes: (self.journal / 12) as u32 }
    }

    /// Codes 101 to 104, then one of 105, 108, 109, then 106, the first that applies; else the graph at the start.
    fn refusal(&self) -> Result<Graph, (u32, usize)> {
        let c = self.capacities();
        let n = self.rows.len();
        if self.calls.len() % 5 != 0 {
            return Err((101, 0));
        }
        if self.answers < 2 * (self.calls.len() / 5) {
            return Err((102, 0));
        }
        if !(1..=1_000).contains(&c.vertices) || !(1..=4_000).contains(&c.edges) || !(1..=20_000).contains(&c.changes) {
            return Err((103, 0));
        }
        if n == 0 || n > 64 || self.rows.iter().any(|row| (n..64).any(|bit| row >> bit & 1 == 1)) {
            return Err((104, 0));
        }
        let Some(start) = image::load(&self.start, c, n as u32) else {
            let bad = image::bad(&self.start, c, n as u32).expect("words that do not load have a bad one");
            return Err((bad.code(), bad.number()));
        };
        if self.image < image_room(c) {
            return Err((106, 0));
        }
        Ok(start)
    }

    pub fn machine(&self) -> Result<Machine, (u32, usize)> {
        let start = self.refusal()?;
        Ok(Machine::new(self.capacities(), Types { rows: self.rows.clone() }, start))
    }

    pub fn run(&self) -> Outcome {
        let mut machine = match self.machine() {
            Ok(machine) => machine,
            Err((code, number)) => return Outcome::Refused(code, number),
        };
        let mut answers = Vec::new();
        for call in self.calls.chunks(5) {
            let (code, number) = machine.call(call.try_into().unwrap());
            answers.extend([code, number]);
        }
        Outcome::Done { answers, image: image::save(machine.present()) }
    }
}

/// The words that code 106 asks for.
pub fn image_room(c: Capacities) -> usize {
    6 + 4 * c.vertices as usize + 8 * c.edges as usize
}
