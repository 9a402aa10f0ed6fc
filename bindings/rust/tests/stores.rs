//! Several stores in one run (REFERENCE 21) through the safe functions.

use futtockfig::{answers, image_words, run, run_stores, Lent, Refused, EMPTY, MOST_STORES};

/// Seven with its old words (REFERENCE 15.1).
#[rustfmt::skip]
const SEVEN: [u32; 74] = [
    4, 7, 6, 18, 60, 74,
    1, 0, 0,  2, 0, 0,  3, 0, 0,  4, 0, 0,
    1, 1, 1, 0, 0, 0,  2, 1, 2, 0, 0, 0,  3, 1, 2, 0, 0, 0,  4, 2, 1, 0, 0, 0,
    5, 4, 1, 0, 0, 0,  6, 4, 2, 0, 0, 0,  7, 4, 4, 0, 0, 0,
    2, 3, 4, 6, 9, 11,  5, 7, 8, 13,  10, 12, 14, 15,
];

/// What becomes of these calls with capacities 10, 10, 20 for each of two stores, and three words more in each table.
fn two(start: &[u32], calls: &[u32], stores: u32, limit: u32) -> Result<(Vec<Result<u32, u32>>, Vec<Vec<u32>>), Refused> {
    let (mut vertices, mut edges, mut journal) = ([7; 163], [9; 243], [3; 483]);
    let (mut words, mut image) = (vec![1; calls.len() / 6 * 2], [5; 2 * image_words(10, 10) + 1]);
    let lent = Lent { vertices: &mut vertices, edges: &mut edges, journal: &mut journal, answers: &mut words, image: &mut image };
    let served = run_stores(start, &[0], calls, lent, stores, limit);
    let told = served.map(|served| (answers(served.answers).collect(), served.images().map(<[u32]>::to_vec).collect()));
    if told.is_err() {
        assert!(words.iter().all(|word| *word == 1) && image == [5; 253] && (vertices, edges, journal) == ([7; 163], [9; 243], [3; 483]));
    }
    assert_eq!(image[252], 5);
    told
}

#[test]
fn two_stores_with_one_limit() {
    let start = [&SEVEN[..], &EMPTY].concat();
    let calls = [
        [1, 7, 1, 1, 0, 0],
        [2, 1, 1, 0, 5, 0],
        [1, 51, 0, 0, 0, 0],
        [1, 7, 1, 2, 0, 0],
        [2, 51, 0, 0, 0, 0],
        [2, 1, 2, 0, 0, 0],
        [1, 19, 0, 0, 0, 0],
        [2, 1, 2, 0, 0, 0],
        [1, 20, 0, 0, 0, 0],
        [1, 51, 0, 0, 0, 0],
        [2, 19, 0, 0, 0, 0],
        [1, 20, 0, 0, 0, 0],
        [3, 51, 0, 0, 0, 0],
        [0, 99, 0, 0, 0, 0],
        [1, 99, 0, 0, 0, 0],
    ]
    .concat();
    let (answered, images) = two(&start, &calls, 2, 3).unwrap();
    let due = [Ok(1), Ok(1), Ok(1), Ok(1), Ok(0), Err(10), Ok(1), Ok(1), Err(10), Ok(0), Ok(1), Ok(1), Err(21), Err(21), Err(1)];
    assert_eq!(answered, due);
    assert_eq!((images[0].len(), images[0][8]), (78, 2));
    assert_eq!(images[1], [1, 0, 6, 10, 10, 10, 1, 0, 5, 0]);
    // Any word is a limit.
    assert_eq!(two(&start, &calls, 2, 0).unwrap().0[..3], [Err(10), Err(10), Ok(0)]);
    assert_eq!(two(&start, &calls, 2, u32::MAX).unwrap().0[..3], [Ok(1), Ok(1), Ok(19)]);

    let bad = [1, 0, 6, 9, 9, 9, 0, 0, 0];
    assert_eq!(two(&[&SEVEN[..], &bad].concat(), &calls, 2, 3), Err(Refused::Record(80)));
    assert_eq!(two(&[&bad[..], &SEVEN].concat(), &calls, 2, 3), Err(Refused::Record(6)));
    assert_eq!(two(&SEVEN, &calls, 2, 3), Err(Refused::Start));
    assert_eq!(two(&[&start[..], &[0]].concat(), &calls, 2, 3), Err(Refused::Start));
    assert_eq!(two(&start, &calls[1..], 2, 3), Err(Refused::Calls));
    for stores in [0, MOST_STORES + 1, u32::MAX] {
        assert_eq!(two(&start, &calls, stores, 3), Err(Refused::Capacity));
    }
    // A part of 63 words is too short.
    assert_eq!(two(&[EMPTY; 4].concat(), &[], 4, 3), Err(Refused::Image));
}

#[test]
fn one_store_by_both_functions() {
    /// What is lent, and what stays of it.
    struct Words([u32; 80], [u32; 120], [u32; 240], [u32; 14], [u32; image_words(10, 10)]);
    impl Words {
        fn lent(&mut self) -> Lent<'_> {
            let Words(vertices, edges, journal, answers, image) = self;
            Lent { vertices, edges, journal, answers, image }
        }
    }
    let words = || Words([7; 80], [9; 120], [3; 240], [1; 14], [5; image_words(10, 10)]);
    let calls = [[7, 1, 1, 0, 0], [2, 3, 0, 0, 0], [17, 5, 0, 0, 0], [19, 0, 0, 0, 0], [51, 0, 0, 0, 0], [21, 5, 0, 0, 0], [2, 3, 0, 0, 0]];
    let six: Vec<u32> = calls.iter().flat_map(|call| [&[1], &call[..]].concat()).collect();
    let (mut five_words, mut six_words) = (words(), words());
    let done = run(&SEVEN, &[0], &calls.concat(), five_words.lent()).unwrap();
    let served = run_stores(&SEVEN, &[0], &six, six_words.lent(), 1, 20).unwrap();
    assert_eq!(served.answers, done.answers);
    assert!(served.images().eq([done.image]));
    assert_eq!((six_words.3, six_words.4), (five_words.3, five_words.4));
    // Words left over behind a bad record.
    let bad = [1, 0, 6, 9, 9, 9, 0, 0, 0, 0];
    assert_eq!(run_stores(&bad, &[0], &six, words().lent(), 1, 20), Err(Refused::Record(6)));
    assert_eq!(run(&bad, &[0], &calls.concat(), words().lent()), Err(Refused::Start));
}
