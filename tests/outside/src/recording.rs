//! A recorded run on the plain machine: the run, and the words of the graph after each step made.

use crate::gen::Random;
use crate::image;
use crate::machine::is_change;
use crate::run::{image_room, Case, Outcome};

#[derive(Clone, PartialEq, Eq, Debug)]
pub enum Recorded {
    /// The code and the number after it.
    Refused(u32, usize),
    /// The words that answers and image begin with, and those that each stretch begins with, as far as steps were made.
    Done { answers: Vec<u32>, image: Vec<u32>, copies: Vec<Vec<u32>> },
}

impl Case {
    /// The calls whose kind is 1 to 16, whatever comes of them.
    pub fn changes(&self) -> usize {
        self.calls.chunks(5).filter(|call| is_change(call[0])).count()
    }

    /// The list with so many words lent for copies.
    pub fn record(&self, words: usize) -> Recorded {
        let (answers, image) = match self.run() {
            Outcome::Refused(code, number) => return Recorded::Refused(code, number),
            Outcome::Done { answers, image } => (answers, image),
        };
        if self.changes() > words / image_room(self.capacities()) {
            return Recorded::Refused(113, 0);
        }
        let mut machine = self.machine().expect("the list is not refused");
        let mut copies = Vec::new();
        for call in self.calls.chunks(5) {
            let (_, number) = machine.call(call.try_into().unwrap());
            if is_change(call[0]) && number != 0 {
                copies.push(image::save(machine.present()));
            }
        }
        Recorded::Done { answers, image, copies }
    }

    /// Words for copies: mostly just enough for the list, at times with a rest, one too few, or none.
    pub fn copies_room(&self, seed: u64) -> usize {
        let mut r = Random::new(!seed);
        let stretch = image_room(self.capacities());
        let enough = stretch * self.changes();
        match r.under(8) {
            0 => enough.saturating_sub(1),
            1 => r.one_of(&[0, stretch - 1, stretch]),
            2 => enough + r.under(stretch),
            3 => enough + 2 * stretch + 1,
            _ => enough,
        }
    }
}

/// A list, the words lent for copies, the answers, the end image and the copies.
type Example = (&'static str, &'static [u32], usize, &'static [(u32, u32)], [u32; 10], Vec<[u32; 10]>);

/// One vertex with this value.
const fn lone(value: u32) -> [u32; 10] {
    [1, 0, 6, 10, 10, 10, 1, 0, value, 0]
}

/// Worked by hand, with room for one vertex, one edge and five changes, from the empty graph: a stretch is 18 words.
pub fn examples() -> Vec<Example> {
    vec![
        (
            "undo, a cut step, back to a mark",
            &[1, 1, 0, 7, 0, 17, 5, 0, 0, 0, 7, 1, 8, 0, 0, 19, 0, 0, 0, 0, 7, 1, 9, 0, 0, 21, 5, 0, 0, 0, 7, 1, 7, 0, 0],
            72,
            &[(0, 1), (0, 0), (0, 1), (0, 1), (0, 1), (0, 1), (0, 0)],
            lone(7),
            vec![lone(7), lone(8), lone(9)],
        ),
        (
            "commit at an earlier place",
            &[1, 1, 0, 7, 0, 7, 1, 8, 0, 0, 19, 0, 0, 0, 0, 22, 0, 0, 0, 0, 17, 5, 0, 0, 0, 7, 1, 9, 0, 0, 21, 5, 0, 0, 0],
            54,
            &[(0, 1), (0, 1), (0, 1), (0, 1), (0, 0), (0, 1), (0, 1)],
            lone(7),
            vec![lone(7), lone(8), lone(9)],
        ),
    ]
}

/// The case of such an example.
pub fn case(calls: &[u32]) -> Case {
    Case { start: vec![0, 0, 6, 6, 6, 6], rows: vec![0], calls: calls.to_vec(), vertices: 8, edges: 12, journal: 60, answers: calls.len() / 5 * 2, image: 18 }
}

#[cfg(test)]
mod tests {
    use super::{case, examples, Recorded};

    #[test]
    fn as_worked_by_hand() {
        for (name, calls, words, answers, image, copies) in examples() {
            let answers: Vec<u32> = answers.iter().flat_map(|a| [a.0, a.1]).collect();
            let copies: Vec<Vec<u32>> = copies.iter().map(|copy| copy.to_vec()).collect();
            assert_eq!(case(calls).record(words), Recorded::Done { answers, image: image.to_vec(), copies }, "{name}");
        }
        // Four calls of kinds 1 to 16 and 71 words: three stretches.
        assert_eq!(case(examples()[0].1).record(71), Recorded::Refused(113, 0));
        // Refused changes are counted.
        assert_eq!(case(&[7, 1, 1, 0, 0]).record(17), Recorded::Refused(113, 0));
        // 101 comes first.
        assert_eq!(case(&[7, 1, 1, 0]).record(0), Recorded::Refused(101, 0));
        assert_eq!(case(&[19, 0, 0, 0, 0]).record(0), Recorded::Done { answers: vec![14, 0], image: vec![0, 0, 6, 6, 6, 6], copies: vec![] });
    }
}
