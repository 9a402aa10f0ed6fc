//! The least list whose last call still gets its code: the procedure of REFERENCE 20, on the plain machine.

use crate::examples::{CAPACITIES, SEVEN_IMAGE};
use crate::gen::{self, Random};
use crate::machine::Call;
use crate::run::Case;

#[derive(Clone, PartialEq, Eq, Debug)]
pub enum Reduced {
    /// The code and the number after it.
    Refused(u32, usize),
    /// The words that the lent list begins with, and the lists run.
    Done { calls: Vec<u32>, runs: usize },
}

impl Case {
    /// The code of the last of these calls on a fresh machine; 0 where there is none.
    fn last_code(&self, calls: &[Call]) -> u32 {
        let mut machine = self.machine().expect("the list is not refused");
        calls.iter().fold(0, |_, call| machine.call(*call).0)
    }

    /// The reduction of the list, with a list of so many words to write to.
    pub fn reduce(&self, room: usize) -> Reduced {
        if let Err((code, number)) = self.machine() {
            return Reduced::Refused(code, number);
        }
        if self.calls.len() / 5 > 20_000 || room < self.calls.len() {
            return Reduced::Refused(114, 0);
        }
        let mut kept: Vec<Call> = self.calls.chunks(5).map(|call| call.try_into().unwrap()).collect();
        let code = self.last_code(&kept);
        if code == 0 {
            return Reduced::Refused(115, 0);
        }
        let mut runs = 1;
        let mut tried = 0;
        while tried + 1 < kept.len() {
            let mut less = kept.clone();
            less.remove(tried);
            runs += 1;
            if self.last_code(&less) == code {
                kept = less;
                tried = 0;
            } else {
                tried += 1;
            }
        }
        Reduced::Done { calls: kept.concat(), runs }
    }
}

/// The case of a seed cut behind one of its first 60 calls, mostly one that is refused, and the words of a list to write to.
pub fn case(seed: u64) -> (Case, usize) {
    let mut case = gen::case(seed);
    let mut r = Random::new(!seed);
    if case.calls.len() % 5 == 0 {
        case.calls.truncate(300);
        if let Ok(mut machine) = case.machine() {
            let codes: Vec<u32> = case.calls.chunks(5).map(|call| machine.call(call.try_into().unwrap()).0).collect();
            let refused: Vec<usize> = (0..codes.len()).filter(|i| codes[*i] != 0).collect();
            if !refused.is_empty() && !r.once_in(12) {
                case.calls.truncate(5 * (r.one_of(&refused) + 1));
            }
        }
    }
    let words = case.calls.len();
    let room = r.one_of(&[words, words, words + 1, words + 7, words + 50, words.saturating_sub(1), 0]);
    (case, if r.once_in(4) { room } else { words + room % 3 })
}

/// These calls on Seven.
pub fn on_seven(calls: &[Call]) -> Case {
    let mut case = Case::new(CAPACITIES, &[0], calls);
    case.start = SEVEN_IMAGE.to_vec();
    case
}

/// So many questions on Seven, all of them accepted: one run says 115, where the list is not too long for any.
pub fn questions(count: usize) -> Case {
    on_seven(&vec![[30, 0, 0, 0, 0]; count])
}

/// How many questions are sent, with a list of as many words to write to, and the code.
pub const MANY: [(usize, u32); 2] = [(20_000, 115), (20_001, 114)];

/// A list on Seven with capacities 10, 10, 20 and one row 0, what is left of it, and the lists run.
type Example = (&'static str, &'static [Call], &'static [Call], usize);

/// Worked by hand.
pub const EXAMPLES: [Example; 4] = [
    ("a deletion twice", &[[7, 1, 1, 0, 0], [2, 3, 0, 0, 0], [17, 5, 0, 0, 0], [2, 3, 0, 0, 0]], &[[2, 3, 0, 0, 0], [2, 3, 0, 0, 0]], 5),
    (
        "a mark that is cut need not have been set",
        &[[7, 1, 1, 0, 0], [17, 5, 0, 0, 0], [19, 0, 0, 0, 0], [7, 1, 2, 0, 0], [21, 5, 0, 0, 0]],
        &[[21, 5, 0, 0, 0]],
        6,
    ),
    ("a mark set twice", &[[17, 5, 0, 0, 0], [18, 5, 0, 0, 0], [17, 5, 0, 0, 0], [17, 5, 0, 0, 0]], &[[17, 5, 0, 0, 0], [17, 5, 0, 0, 0]], 4),
    ("one call", &[[21, 5, 0, 0, 0]], &[[21, 5, 0, 0, 0]], 1),
];

#[cfg(test)]
mod tests {
    use super::{on_seven, questions, Reduced, EXAMPLES, MANY};

    #[test]
    fn as_worked_by_hand() {
        for (name, calls, kept, runs) in EXAMPLES {
            assert_eq!(on_seven(calls).reduce(5 * calls.len()), Reduced::Done { calls: kept.concat(), runs }, "{name}");
        }
        // Accepted; too short a list before that; no call, on no words; four words.
        let first = on_seven(&[[30, 0, 0, 0, 0]]);
        assert_eq!(first.reduce(5), Reduced::Refused(115, 0));
        assert_eq!(first.reduce(4), Reduced::Refused(114, 0));
        assert_eq!(on_seven(&[]).reduce(0), Reduced::Refused(115, 0));
        let mut four = first.clone();
        four.calls.pop();
        assert_eq!(four.reduce(0), Reduced::Refused(101, 0));
    }

    #[test]
    fn at_the_limit() {
        for (count, code) in MANY {
            assert_eq!(questions(count).reduce(5 * count), Reduced::Refused(code, 0), "{count} calls");
        }
    }
}
