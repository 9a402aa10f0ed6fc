//! A recorded list (REFERENCE 19) through the safe functions.

use futtockfig::{answers, image_words, record, Lent, Refused, EMPTY};

/// Records calls with capacities 1, 1, 5 and one type, from the empty graph, in words for copies that are all 77.
fn with_copies<const N: usize>(calls: &[u32]) -> (Result<(Vec<u32>, u32, Vec<Vec<u32>>), Refused>, [u32; N]) {
    let (mut vertices, mut edges, mut journal) = ([7; 8], [9; 12], [3; 60]);
    let (mut answer_words, mut image, mut copies) = (vec![1; calls.len() / 5 * 2], [5; image_words(1, 1)], [77; N]);
    let lent = Lent { vertices: &mut vertices, edges: &mut edges, journal: &mut journal, answers: &mut answer_words, image: &mut image };
    let recorded = record(&EMPTY, &[0], calls, lent, &mut copies).map(|recorded| {
        let numbers = answers(recorded.done.answers).map(Result::unwrap).collect();
        assert_eq!(recorded.copies().count(), recorded.steps);
        (numbers, recorded.done.image[8], recorded.copies().map(<[u32]>::to_vec).collect())
    });
    (recorded, copies)
}

#[test]
fn copies_of_steps() {
    let lone = |value| vec![1, 0, 6, 10, 10, 10, 1, 0, value, 0];
    let mut calls = [[1, 1, 0, 7, 0], [17, 5, 0, 0, 0], [7, 1, 8, 0, 0], [19, 0, 0, 0, 0], [7, 1, 9, 0, 0], [21, 5, 0, 0, 0], [7, 1, 7, 0, 0]].concat();
    let (recorded, copies) = with_copies::<72>(&calls);
    assert_eq!(recorded, Ok((vec![1, 0, 1, 1, 1, 1, 0], 7, vec![lone(7), lone(8), lone(9)])));
    for (k, stretch) in copies.chunks(18).enumerate() {
        let written = if k < 3 { 10 } else { 0 };
        assert!(stretch[written..].iter().all(|word| *word == 77));
    }
    assert_eq!(with_copies::<71>(&calls), (Err(Refused::Copies), [77; 71]));
    assert_eq!(Refused::Copies.to_string(), "refused, code 113: the list has more changes than the copies have room for");
    calls.pop();
    assert_eq!(with_copies::<0>(&calls), (Err(Refused::Calls), []));

    // After a commit at an earlier place, place 0 has the copy of that place.
    let calls = [[1, 1, 0, 7, 0], [7, 1, 8, 0, 0], [19, 0, 0, 0, 0], [22, 0, 0, 0, 0], [17, 5, 0, 0, 0], [7, 1, 9, 0, 0], [21, 5, 0, 0, 0]].concat();
    assert_eq!(with_copies::<54>(&calls).0, Ok((vec![1, 1, 1, 1, 0, 1, 1], 7, vec![lone(7), lone(8), lone(9)])));
}
