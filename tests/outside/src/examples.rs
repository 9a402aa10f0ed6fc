//! The examples of docs/REFERENCE.md: the table of codes, cases A to L and chartrun's text.

use crate::machine::{Call, Capacities};
use crate::run::Case;

pub const CAPACITIES: Capacities = Capacities { vertices: 10, edges: 10, changes: 20 };

/// Seven, made in its order.
pub const SEVEN: [Call; 11] = [
    [1, 1, 0, 0, 0],
    [1, 2, 0, 0, 0],
    [1, 3, 0, 0, 0],
    [1, 4, 0, 0, 0],
    [3, 1, 1, 1, 0],
    [3, 2, 1, 2, 0],
    [3, 3, 1, 2, 0],
    [3, 4, 2, 1, 0],
    [3, 5, 4, 1, 0],
    [3, 6, 4, 2, 0],
    [3, 7, 4, 4, 0],
];

/// Seven saved: 4 vertices, 7 edges, the lists of cases A to C.
#[rustfmt::skip]
pub const SEVEN_IMAGE: [u32; 78] = [
    4, 7, 6, 22, 64, 78,
    1, 0, 0, 6,  2, 0, 0, 4,  3, 0, 0, 0,  4, 0, 0, 4,
    1, 1, 1, 0, 0, 0,  2, 1, 2, 0, 0, 0,  3, 1, 2, 0, 0, 0,  4, 2, 1, 0, 0, 0,
    5, 4, 1, 0, 0, 0,  6, 4, 2, 0, 0, 0,  7, 4, 4, 0, 0, 0,
    2, 3, 4, 6, 9, 11,  5, 7, 8, 13,  10, 12, 14, 15,
];

/// Its old words, without degrees.
#[rustfmt::skip]
pub const SEVEN_OLD: [u32; 74] = [
    4, 7, 6, 18, 60, 74,
    1, 0, 0,  2, 0, 0,  3, 0, 0,  4, 0, 0,
    1, 1, 1, 0, 0, 0,  2, 1, 2, 0, 0, 0,  3, 1, 2, 0, 0, 0,  4, 2, 1, 0, 0, 0,
    5, 4, 1, 0, 0, 0,  6, 4, 2, 0, 0, 0,  7, 4, 4, 0, 0, 0,
    2, 3, 4, 6, 9, 11,  5, 7, 8, 13,  10, 12, 14, 15,
];

/// One or more calls from Seven, and the code and number that each must answer.
pub struct Example {
    pub name: &'static str,
    pub calls: Vec<Call>,
    pub answers: Vec<(u32, u32)>,
}

impl Example {
    pub fn case(&self) -> Case {
        let mut case = Case::new(CAPACITIES, &[0], &self.calls);
        case.start = SEVEN_IMAGE.to_vec();
        case
    }
}

fn example(name: &'static str, calls: &[Call], answers: &[(u32, u32)]) -> Example {
    Example { name, calls: calls.to_vec(), answers: answers.to_vec() }
}

/// A walk along the list of a vertex, with what it must answer.
fn walk(vertex: u32, list: &[u32]) -> (Vec<Call>, Vec<(u32, u32)>) {
    let mut calls = vec![[34, vertex, 0, 0, 0]];
    calls.extend(list.iter().map(|w| [35, *w, 0, 0, 0]));
    let mut answers: Vec<(u32, u32)> = list.iter().map(|w| (0, *w)).collect();
    answers.push((0, 0));
    (calls, answers)
}

/// Calls with their answers, then a walk along a list.
fn then_walk(name: &'static str, before: &[(Call, (u32, u32))], vertex: u32, list: &[u32]) -> Example {
    let (walked, found) = walk(vertex, list);
    let mut e = Example { name, calls: vec![], answers: vec![] };
    for (call, answer) in before {
        e.calls.push(*call);
        e.answers.push(*answer);
    }
    e.calls.extend(walked);
    e.answers.extend(found);
    e
}

/// The rows of the table for single calls, codes 1 to 20.
pub fn codes() -> Vec<Example> {
    // Fifteen changes of cost 1 leave 5 free: deleting vertex 1 costs 6.
    let mut fifteen: Vec<Call> = (1..=15).map(|value| [7, 1, value, 0, 0]).collect();
    let mut fifteen_done = vec![(0, 1); 15];
    fifteen.extend([[51, 0, 0, 0, 0], [2, 1, 0, 0, 0]]);
    fifteen_done.extend([(0, 5), (10, 0)]);
    vec![
        example("code 1", &[[29, 0, 0, 0, 0]], &[(1, 0)]),
        example("code 2", &[[1, 11, 0, 0, 0]], &[(2, 0)]),
        example("code 3", &[[1, 3, 0, 0, 0]], &[(3, 0)]),
        example("code 4", &[[2, 5, 0, 0, 0]], &[(4, 0)]),
        example("code 5", &[[4, 8, 0, 0, 0]], &[(5, 0)]),
        example("code 6", &[[5, 1, 1, 0, 0]], &[(6, 0)]),
        example("code 7", &[[8, 1, 1, 3, 0]], &[(7, 0)]),
        example("code 8", &[[15, 2, 5, 0, 0]], &[(8, 0)]),
        example("code 9", &[[15, 2, 2, 0, 0]], &[(9, 0)]),
        example("code 10", &fifteen, &fifteen_done),
        example("code 11", &[[17, 0, 0, 0, 0]], &[(11, 0)]),
        example("code 12", &[[17, 5, 0, 0, 0], [17, 5, 0, 0, 0]], &[(0, 0), (12, 0)]),
        example("code 13", &[[21, 5, 0, 0, 0]], &[(13, 0)]),
        example("code 14", &[[19, 0, 0, 0, 0]], &[(14, 0)]),
        example("code 15", &[[45, 1, 0, 3, 0]], &[(15, 0)]),
        example("code 16", &[[53, 1, 2, 0, 0]], &[(16, 0)]),
        example("code 17", &[[8, 1, 2, 0, 0], [54, 1, 1, 3, 0]], &[(0, 1), (17, 0)]),
        example("code 18", &[[17, 5, 0, 0, 0], [56, 5, 0, 0, 0]], &[(0, 0), (18, 0)]),
        example("code 19", &[[17, 5, 0, 0, 0], [57, 0, 0, 0, 0]], &[(0, 0), (19, 0)]),
        example("code 20", &[[58, 100, 0, 0, 0]], &[(20, 0)]),
    ]
}

/// The rows of the table for whole lists: 101 to 106, 108 and 109.
pub fn list_codes() -> Vec<(u32, usize, Case)> {
    let seven = || Example { name: "", calls: vec![[30, 0, 0, 0, 0]], answers: vec![] }.case();
    let with = |code, number, change: &dyn Fn(&mut Case)| {
        let mut case = seven();
        change(&mut case);
        (code, number, case)
    };
    let old = |c: &mut Case, at: usize, word: u32| {
        c.start = SEVEN_OLD.to_vec();
        c.start[at] = word;
    };
    vec![
        with(101, 0, &|c| c.calls.push(0)),
        with(102, 0, &|c| c.answers = 1),
        with(103, 0, &|c| c.vertices = 7),
        with(104, 0, &|c| c.rows.clear()),
        with(105, 0, &|c| c.start = vec![0, 0, 6, 6, 6, 7]),
        // The second of two equal numbers; the second end; a reading kind; a word twice; a word of another vertex.
        with(108, 10, &|c| c.start[10] = 1),
        with(108, 24, &|c| c.start[24] = 5),
        with(108, 26, &|c| c.start[26] = 3),
        with(109, 65, &|c| c.start[65] = 2),
        with(109, 77, &|c| c.start[77] = 3),
        // A degree; a degree and an edge behind it; a degree and a word of the lists; old words.
        with(108, 9, &|c| c.start[9] = 5),
        with(108, 24, &|c| (c.start[9], c.start[24]) = (5, 5)),
        with(108, 21, &|c| (c.start[21], c.start[64]) = (3, 0)),
        with(108, 20, &|c| old(c, 20, 5)),
        with(109, 61, &|c| old(c, 61, 2)),
        // The edge offset of one record, all else of the other.
        with(105, 0, &|c| c.start[3] = 18),
        with(105, 0, &|c| old(c, 3, 22)),
        with(106, 0, &|c| c.image = 125),
        with(106, 0, &|c| c.image = 116),
    ]
}

/// Cases A to L.
pub fn letters() -> Vec<Example> {
    let degree = |v, c| [45, v, 0, c, 0];
    vec![
        then_walk("A", &[], 1, &[2, 3, 4, 6, 9, 11]),
        then_walk("B", &[], 2, &[5, 7, 8, 13]),
        then_walk("C", &[], 4, &[10, 12, 14, 15]),
        example("D", &[degree(3, 0)], &[(0, 0)]),
        example("E", &[degree(1, 0), degree(1, 1), degree(1, 2)], &[(0, 6), (0, 3), (0, 3)]),
        then_walk("F", &[([2, 1, 0, 0, 0], (0, 6))], 4, &[12, 14, 15]),
        then_walk("G", &[([2, 1, 0, 0, 0], (0, 6)), ([19, 0, 0, 0, 0], (0, 1))], 4, &[10, 12, 14, 15]),
        then_walk("H", &[([15, 3, 2, 0, 0], (0, 1))], 1, &[3, 2, 4, 6, 9, 11]),
        then_walk("I", &[([10, 2, 2, 0, 0], (0, 1))], 2, &[7, 8, 13, 5]),
        example("J", &[[17, 5, 0, 0, 0], [19, 0, 0, 0, 0], [50, 0, 0, 0, 0], [21, 5, 0, 0, 0]], &[(0, 0), (14, 0), (0, 1), (0, 0)]),
        example(
            "K",
            &[[2, 3, 0, 0, 0], [17, 5, 0, 0, 0], [19, 0, 0, 0, 0], [2, 4, 0, 0, 0], [50, 0, 0, 0, 0], [21, 5, 0, 0, 0]],
            &[(0, 1), (0, 0), (0, 1), (0, 4), (0, 0), (13, 0)],
        ),
        example("L", &[[17, 5, 0, 0, 0], [2, 3, 0, 0, 0], [19, 0, 0, 0, 0], [20, 0, 0, 0, 0], [21, 5, 0, 0, 0]], &[(0, 0), (0, 1), (0, 1), (0, 1), (0, 1)]),
    ]
}

/// Slips that are easily made.
pub fn slips() -> Vec<Example> {
    vec![
        then_walk(
            "a loop's two words come back in their order",
            &[([15, 3, 2, 0, 0], (0, 1)), ([4, 1, 0, 0, 0], (0, 1)), ([19, 0, 0, 0, 0], (0, 1))],
            1,
            &[3, 2, 4, 6, 9, 11],
        ),
        example(
            "a refused change cuts no redo steps",
            &[[2, 3, 0, 0, 0], [19, 0, 0, 0, 0], [2, 9, 0, 0, 0], [20, 0, 0, 0, 0]],
            &[(0, 1), (0, 1), (4, 0), (0, 1)],
        ),
        example(
            "a mark whose place equals p stays",
            &[[17, 5, 0, 0, 0], [2, 3, 0, 0, 0], [50, 0, 0, 0, 0], [21, 5, 0, 0, 0]],
            &[(0, 0), (0, 1), (0, 1), (0, 1)],
        ),
        example("kind 2 is one step", &[[2, 1, 0, 0, 0], [19, 0, 0, 0, 0], [19, 0, 0, 0, 0], [33, 6, 0, 0, 0]], &[(0, 6), (0, 1), (14, 0), (0, 7)]),
        example("a loop counts once in a cost", &[[2, 4, 0, 0, 0], [51, 0, 0, 0, 0]], &[(0, 4), (0, 16)]),
    ]
}

/// Marks with names.
pub fn names() -> Vec<Example> {
    vec![
        example(
            "a name is held by one mark, and free when it is replaced",
            &[[17, 5, 0, 0, 0], [56, 5, 7, 0, 0], [17, 6, 0, 0, 0], [56, 6, 7, 0, 0], [56, 5, 0, 9, 0], [56, 6, 7, 0, 0], [57, 7, 0, 0, 0], [57, 0, 0, 0, 0]],
            &[(0, 0), (0, 0), (0, 0), (18, 0), (0, 0), (0, 0), (0, 0), (19, 0)],
        ),
        example(
            "a name goes when its mark is cut, and is not back when the mark is set again",
            &[[7, 1, 1, 0, 0], [17, 5, 0, 0, 0], [56, 5, 1, 2, 0], [19, 0, 0, 0, 0], [7, 1, 2, 0, 0], [57, 1, 2, 0, 0], [17, 5, 0, 0, 0], [57, 1, 2, 0, 0]],
            &[(0, 1), (0, 0), (0, 0), (0, 1), (0, 1), (19, 0), (0, 0), (19, 0)],
        ),
    ]
}

/// Steps of several benches.
pub fn benches() -> Vec<Example> {
    let mut shared =
        vec![[17, 1, 0, 0, 0], [7, 1, 1, 0, 0], [58, 3, 0, 0, 0], [7, 1, 2, 0, 0], [2, 1, 0, 0, 0], [58, 0, 0, 0, 0], [7, 2, 5, 0, 0], [17, 2, 0, 0, 0]];
    shared.extend([[19, 0, 0, 0, 0]; 4]);
    shared.extend([[59, 1, 2, 3, 0], [59, 2, 1, 0, 0], [49, 1, 2, 0, 0], [59, 1, 2, 100, 0], [59, 1, 65, 100, 0], [59, 1, 9, 100, 0]]);
    let mut shared_done = vec![(0, 0), (0, 1), (0, 0), (0, 1), (0, 6), (0, 0), (0, 1), (0, 0)];
    shared_done.extend([(0, 1); 4]);
    shared_done.extend([(0, 2), (0, 2), (0, 4), (20, 0), (11, 0), (13, 0)]);
    vec![
        example(
            "commit keeps the bench",
            &[[58, 7, 0, 0, 0], [7, 1, 1, 0, 0], [22, 0, 0, 0, 0], [17, 1, 0, 0, 0], [7, 1, 2, 0, 0], [17, 2, 0, 0, 0], [59, 1, 2, 7, 0], [59, 1, 2, 0, 0]],
            &[(0, 0), (0, 1), (0, 1), (0, 0), (0, 1), (0, 0), (0, 1), (0, 0)],
        ),
        example("steps that are undone still count, each for its bench", &shared, &shared_done),
    ]
}

/// Every range, on a loop, and its grade by each price list.
pub fn every_grade() -> Case {
    let mut calls = vec![[1, 1, 0, 0, 0], [3, 1, 1, 1, 0]];
    calls.extend((0..10_000).flat_map(|d| [[8, 1, 2, d, 0], [54, 1, 1, 0, 0], [54, 1, 1, 1, 0], [54, 1, 1, 2, 0]]));
    Case::new(Capacities { vertices: 1, edges: 1, changes: 20_000 }, &[0], &calls)
}

pub const TEXT: &str = "1 1 0 7 0\n1 2 0 9 0\n3 1 1 2 0\n8 1 2 450 0\n17 5 0 0 0\n2 1 0 0 0\n32 0 0 0 0\n21 5 0 0 0\n44 1 0 0 0\n";
pub const TEXT_ANSWER: &str =
    "done 1\ndone 1\ndone 1\ndone 1\ndone 0\ndone 2\ndone 0\ndone 1\ndone 450\nimage 2 1 6 14 20 22 1 0 7 1 2 0 9 1 1 1 2 0 2 450 2 3\n";

#[cfg(test)]
mod tests {
    use super::*;
    use crate::run::Outcome;
    use crate::{image, text};

    fn answers(case: &Case) -> Vec<(u32, u32)> {
        match case.run() {
            Outcome::Done { answers, .. } => answers.chunks(2).map(|a| (a[0], a[1])).collect(),
            Outcome::Refused(code, _) => panic!("refused {code}"),
        }
    }

    #[test]
    fn seven_is_its_image() {
        let case = Case::new(CAPACITIES, &[0], &SEVEN);
        assert_eq!(case.run(), Outcome::Done { answers: [0, 1].repeat(11), image: SEVEN_IMAGE.to_vec() });
        assert!(image::load(&SEVEN_IMAGE, CAPACITIES, 1).is_some());
    }

    #[test]
    fn seven_by_both_records() {
        for start in [&SEVEN_IMAGE[..], &SEVEN_OLD] {
            let case = Case { start: start.to_vec(), image: 126, ..Case::new(CAPACITIES, &[0], &[]) };
            assert_eq!(case.run(), Outcome::Done { answers: vec![], image: SEVEN_IMAGE.to_vec() });
        }
    }

    #[test]
    fn every_code_of_a_call() {
        assert_eq!(codes().len(), 20);
        for e in codes() {
            assert_eq!(answers(&e.case()), e.answers, "{}", e.name);
        }
    }

    #[test]
    fn every_code_of_a_list() {
        for (code, number, case) in list_codes() {
            assert_eq!(case.run(), Outcome::Refused(code, number));
        }
    }

    #[test]
    fn a_to_l() {
        assert_eq!(letters().len(), 12);
        for e in letters() {
            assert_eq!(answers(&e.case()), e.answers, "{}", e.name);
        }
    }

    #[test]
    fn named_slips() {
        for e in slips() {
            assert_eq!(answers(&e.case()), e.answers, "{}", e.name);
        }
    }

    #[test]
    fn marks_with_names() {
        for e in names() {
            assert_eq!(answers(&e.case()), e.answers, "{}", e.name);
        }
    }

    #[test]
    fn steps_by_bench() {
        for e in benches() {
            assert_eq!(answers(&e.case()), e.answers, "{}", e.name);
        }
    }

    #[test]
    fn every_range_has_its_grade() {
        let grades: Vec<_> = answers(&every_grade())[2..].chunks(4).map(|a| [a[1], a[2], a[3]]).collect();
        assert_eq!(grades, (0..10_000).map(|d| [(0, d / 250), (0, d / 250), (0, d / 200)]).collect::<Vec<_>>());
    }

    #[test]
    fn below_is_closed_under_chaining() {
        let types = crate::machine::Types { rows: vec![1 << 4, 0, 1 << 3, 1 << 2 | 1 << 1, 0] };
        assert!(types.below(2, 1) && types.below(3, 2) && types.below(1, 4) && types.below(2, 2));
        assert!(!types.below(1, 3) && !types.below(4, 1));
    }

    #[test]
    fn chartrun_example() {
        assert_eq!(String::from_utf8(text::chartrun(TEXT.as_bytes())).unwrap(), TEXT_ANSWER);
    }

    #[test]
    fn chartrun_bad_text() {
        let says = |input: &[u8]| String::from_utf8(text::chartrun(input)).unwrap();
        assert_eq!(says(b""), "image 0 0 6 6 6 6\n");
        assert_eq!(says(b"30 0 0 0 0"), "unreadable 1\n");
        assert_eq!(says(b"30 0 0 0 0\n\n"), "unreadable 2\n");
        assert_eq!(says(b"30 0 0 0 4294967295\n"), "done 0\nimage 0 0 6 6 6 6\n");
        assert_eq!(says(b"30 0 0 0 4294967296\n"), "unreadable 1\n");
        assert_eq!(says(b"30 0 0 0 00\n"), "unreadable 1\n");
        assert_eq!(says(b"30 0 0  0 0\n"), "unreadable 1\n");
        assert_eq!(says(&b"50 0 0 0 0\n".repeat(1_000)), "done 0\n".repeat(1_000) + "image 0 0 6 6 6 6\n");
        assert_eq!(says(&b"50 0 0 0 0\n".repeat(1_001)), "unreadable 1001\n");
        assert_eq!(says(&[b"x\n".repeat(1_000), b"5".to_vec()].concat()), "unreadable 1001\n");
        assert_eq!(says(&[b'x'; 60_000]), "unreadable 1\n");
        assert_eq!(says(&[b'\n'; 60_001]), "unreadable 0\n");
    }
}
