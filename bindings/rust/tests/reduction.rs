//! A list reduced (REFERENCE 20) through the safe functions.

use futtockfig::{image_words, reduce, Lent, Refused};

/// Seven (REFERENCE 15.1).
#[rustfmt::skip]
const SEVEN: [u32; 78] = [
    4, 7, 6, 22, 64, 78,
    1, 0, 0, 6,  2, 0, 0, 4,  3, 0, 0, 0,  4, 0, 0, 4,
    1, 1, 1, 0, 0, 0,  2, 1, 2, 0, 0, 0,  3, 1, 2, 0, 0, 0,  4, 2, 1, 0, 0, 0,
    5, 4, 1, 0, 0, 0,  6, 4, 2, 0, 0, 0,  7, 4, 4, 0, 0, 0,
    2, 3, 4, 6, 9, 11,  5, 7, 8, 13,  10, 12, 14, 15,
];

#[test]
fn lists_reduced() {
    let with = |calls: &[u32], room: usize| {
        let (mut vertices, mut edges, mut journal) = ([7; 80], [9; 120], [3; 240]);
        let (mut answer_words, mut image, mut list) = (vec![1; calls.len() / 5 * 2], [5; image_words(10, 10)], vec![77; room]);
        let lent = Lent { vertices: &mut vertices, edges: &mut edges, journal: &mut journal, answers: &mut answer_words, image: &mut image };
        let reduced = reduce(&SEVEN, &[0], calls, lent, &mut list).map(|reduced| (reduced.calls.to_vec(), reduced.runs));
        let kept = reduced.as_ref().map_or(0, |reduced| reduced.0.len());
        assert!(list[kept..].iter().all(|word| *word == 77));
        reduced
    };
    let list = [[7, 1, 1, 0, 0], [2, 3, 0, 0, 0], [17, 5, 0, 0, 0], [2, 3, 0, 0, 0]].concat();
    assert_eq!(with(&list, 25), Ok((vec![2, 3, 0, 0, 0, 2, 3, 0, 0, 0], 5)));
    let list = [[7, 1, 1, 0, 0], [17, 5, 0, 0, 0], [19, 0, 0, 0, 0], [7, 1, 2, 0, 0], [21, 5, 0, 0, 0]].concat();
    assert_eq!(with(&list, 25), Ok((vec![21, 5, 0, 0, 0], 6)));
    let list = [[17, 5, 0, 0, 0], [18, 5, 0, 0, 0], [17, 5, 0, 0, 0], [17, 5, 0, 0, 0]].concat();
    assert_eq!(with(&list, 20), Ok((vec![17, 5, 0, 0, 0, 17, 5, 0, 0, 0], 4)));
    assert_eq!(with(&[30, 0, 0, 0, 0], 5), Err(Refused::NoFailure));
    assert_eq!(with(&[30, 0, 0, 0, 0], 4), Err(Refused::List));
    assert_eq!(with(&[], 0), Err(Refused::NoFailure));
    assert_eq!(with(&[30, 0, 0, 0], 0), Err(Refused::Calls));
    assert_eq!((Refused::List.code(), Refused::NoFailure.code()), (114, 115));
}
