//! Examples of docs/REFERENCE.md through the safe functions.

use futtockfig::{
    answers, arrange_edges, arrange_vertices, arrange_words, compare, image_words, kind, name, page, part, run, span, Comparison, Done, Lent, NoImage,
    NotArranged, Part, Refused, EMPTY, PAGE_ROW,
};

/// Runs calls with capacities 10, 10, 20 and one type, in lent words that are full of junk.
fn with<T>(calls: &[u32], start: &[u32], then: impl FnOnce(Result<Done, Refused>) -> T) -> T {
    let (mut vertices, mut edges, mut journal) = ([7; 85], [9; 125], [3; 245]);
    let mut answer_words = vec![1; calls.len() / 5 * 2 + 1];
    let mut image = [5; image_words(10, 10) + 4];
    let lent = Lent { vertices: &mut vertices, edges: &mut edges, journal: &mut journal, answers: &mut answer_words, image: &mut image };
    then(run(start, &[0], calls, lent))
}

const SEVEN: [u32; 55] = [
    1, 1, 0, 0, 0, 1, 2, 0, 0, 0, 1, 3, 0, 0, 0, 1, 4, 0, 0, 0, 3, 1, 1, 1, 0, 3, 2, 1, 2, 0, 3, 3, 1, 2, 0, 3, 4, 2, 1, 0, 3, 5, 4, 1, 0, 3, 6, 4, 2, 0, 3, 7,
    4, 4, 0,
];

fn seven() -> Vec<u32> {
    with(&SEVEN, &EMPTY, |done| done.unwrap().image.to_vec())
}

#[test]
fn seven_and_its_parts() {
    let image = seven();
    assert_eq!(image.len(), 78);
    assert_eq!(part(&image, Part::Vertices), [1, 0, 0, 6, 2, 0, 0, 4, 3, 0, 0, 0, 4, 0, 0, 4]);
    assert_eq!(part(&image, Part::Edges).len(), 42);
    assert_eq!(part(&image, Part::Lists), [2, 3, 4, 6, 9, 11, 5, 7, 8, 13, 10, 12, 14, 15]);
    // The part lies in the caller's own words.
    assert_eq!(part(&image, Part::Lists).as_ptr(), image[64..].as_ptr());
    // An empty part lies where the header says; without a sound header there is none.
    assert_eq!([Part::Vertices, Part::Edges, Part::Lists].map(|which| span(&EMPTY, which)), [Some(6..6), Some(6..6), Some(6..6)]);
    assert_eq!(span(&[1, 0, 6, 10, 10, 10, 1, 0, 7, 0], Part::Edges), Some(10..10));
    assert_eq!(span(&[1, 0, 6, 9, 9, 9, 1, 0, 7], Part::Edges), Some(9..9));
    assert_eq!(span(&image[1..], Part::Vertices), None);
    assert!(part(&image[1..], Part::Vertices).is_empty());
    assert!(part(&[], Part::Vertices).is_empty());
}

/// The image without its degrees, as it was up to version 8.
fn old_words(image: &[u32]) -> Vec<u32> {
    let (v, e) = (image[0], image[1]);
    let header = [v, e, 6, 6 + 3 * v, 6 + 3 * v + 6 * e, 6 + 3 * v + 8 * e];
    let records = part(image, Part::Vertices).chunks(4).flat_map(|record| &record[..3]);
    header.iter().chain(records).chain(part(image, Part::Edges)).chain(part(image, Part::Lists)).copied().collect()
}

#[test]
fn old_and_new_words() {
    let (new, old) = (seven(), old_words(&seven()));
    assert_eq!(old.len(), 74);
    // Both start the same graph, which is saved with its degrees.
    for start in [&new, &old] {
        with(&[], start, |done| assert_eq!(done.unwrap().image, new));
    }
    let parts = |words, which| part(words, which).to_vec();
    assert_eq!(parts(&old, Part::Vertices), [1, 0, 0, 2, 0, 0, 3, 0, 0, 4, 0, 0]);
    assert_eq!((parts(&old, Part::Edges), parts(&old, Part::Lists)), (parts(&new, Part::Edges), parts(&new, Part::Lists)));
    assert_eq!(span(&old, Part::Lists), Some(60..74));
    let rows = |words: &[u32]| page(words, &mut [0; 7 * PAGE_ROW]).map(<[u8]>::to_vec);
    assert_eq!(rows(&old), rows(&new));
    // The edge offset of one record, and all else of the other.
    for (words, offset) in [(&new, old[3]), (&old, new[3])] {
        let mut mixed = words.clone();
        mixed[3] = offset;
        assert_eq!(span(&mixed, Part::Vertices), None);
        with(&[], &mixed, |done| assert_eq!(done, Err(Refused::Start)));
    }
}

#[test]
fn a_list_begins_after_the_degrees_before_it() {
    let image = seven();
    let mut lists = part(&image, Part::Lists);
    let mut found = Vec::new();
    for record in part(&image, Part::Vertices).chunks(4) {
        let (list, rest) = lists.split_at(record[3] as usize);
        found.push(list);
        lists = rest;
    }
    assert_eq!(found, [&[2, 3, 4, 6, 9, 11][..], &[5, 7, 8, 13], &[], &[10, 12, 14, 15]]);
    assert!(lists.is_empty());
}

#[test]
fn delete_and_undo() {
    let calls = [[kind::DELETE_VERTEX, 1, 0, 0, 0], [kind::UNDO, 0, 0, 0, 0], [kind::UNDO, 0, 0, 0, 0]].concat();
    let start = seven();
    with(&calls, &start, |done| {
        let done = done.unwrap();
        assert!(answers(done.answers).eq([Ok(6), Ok(1), Err(14)]));
        assert_eq!(done.image, start);
    });
}

#[test]
fn marks_by_name() {
    let [first, second] = name("received").unwrap();
    let [other, zeros] = name("new").unwrap();
    assert_eq!((zeros, name(""), name("\0\0"), name("new aerial")), (0, None, None, None));
    let calls = [
        [kind::SET_MARK, 5, 0, 0, 0],
        [kind::NAME_MARK, 5, first, second, 0],
        [kind::DELETE_VERTEX, 1, 0, 0, 0],
        [kind::SET_MARK, 6, 0, 0, 0],
        [kind::NAME_MARK, 6, first, second, 0],
        [kind::NAME_MARK, 6, other, zeros, 0],
        [kind::GO_TO_NAME, first, second, 0, 0],
        [kind::GO_TO_NAME, other, zeros, 0, 0],
        [kind::GO_TO_NAME, second, first, 0, 0],
        [kind::DROP_MARK, 5, 0, 0, 0],
        [kind::GO_TO_NAME, first, second, 0, 0],
    ];
    with(&calls.concat(), &seven(), |done| {
        let wanted = [Ok(0), Ok(0), Ok(6), Ok(0), Err(18), Ok(0), Ok(1), Ok(1), Err(19), Ok(0), Err(19)];
        assert!(answers(done.unwrap().answers).eq(wanted));
    });
}

#[test]
fn steps_by_bench() {
    let made_by = |bench| [kind::STEPS_MADE_BY, 2, 1, bench, 0];
    let calls = [
        [kind::SET_MARK, 1, 0, 0, 0],
        [kind::SET_VALUE, 2, 5, 0, 0],
        [kind::SET_BENCH, 7, 0, 0, 0],
        [kind::DELETE_VERTEX, 1, 0, 0, 0],
        [kind::SET_VALUE, 2, 6, 0, 0],
        [kind::SET_MARK, 2, 0, 0, 0],
        [kind::GO_TO_MARK, 1, 0, 0, 0],
        [kind::SET_BENCH, 100, 0, 0, 0],
        made_by(0),
        made_by(7),
        made_by(99),
        made_by(100),
        [kind::STEPS_BETWEEN, 1, 2, 0, 0],
    ];
    with(&calls.concat(), &seven(), |done| {
        let wanted = [Ok(0), Ok(1), Ok(0), Ok(6), Ok(1), Ok(0), Ok(3), Err(20), Ok(1), Ok(2), Ok(0), Err(20), Ok(3)];
        assert!(answers(done.unwrap().answers).eq(wanted));
    });
}

#[test]
fn grades_by_both_price_lists() {
    let grade = |list| [kind::GRADE, 1, 1, list, 0];
    let calls = [[kind::SET_READING, 1, 2, 400, 0], grade(0), grade(1), grade(2), grade(3)].concat();
    with(&calls, &seven(), |done| assert!(answers(done.unwrap().answers).eq([Ok(1), Ok(1), Ok(1), Ok(2), Err(17)])));
}

#[test]
fn lists_refused() {
    with(&[0; 6], &EMPTY, |done| assert_eq!(done, Err(Refused::Calls)));
    with(&[], &[0, 0, 6, 6, 6, 7], |done| assert_eq!(done, Err(Refused::Start)));
    with(&[], &[], |done| assert_eq!(done.unwrap_err().to_string(), "refused, code 105: the words have no sound header within the capacities"));
    let damaged = |at: usize, word: u32| {
        let mut start = seven();
        start[at] = word;
        with(&[], &start, |done| done.unwrap_err())
    };
    // The second of two equal numbers; an end that is no vertex; a degree; a word twice in a list.
    assert_eq!(damaged(10, 1), Refused::Record(10));
    assert_eq!(damaged(24, 5), Refused::Record(24));
    assert_eq!(damaged(9, 5), Refused::Record(9));
    assert_eq!(damaged(65, 2), Refused::Incidence(65));
    assert_eq!(damaged(65, 2).to_string(), "refused, code 109: a list is bad at word 65");
    assert_eq!((damaged(10, 1).code(), damaged(10, 1).offset(), damaged(0, 9).offset()), (108, Some(10), None));
    with(&[], &EMPTY, |done| assert_eq!(done, Ok(Done { answers: &[], image: &EMPTY })));
}

#[test]
fn empty_slices() {
    let lent = || Lent { vertices: &mut [], edges: &mut [], journal: &mut [], answers: &mut [], image: &mut [] };
    assert_eq!(run(&[], &[], &[], lent()), Err(Refused::Capacity));
    assert_eq!(run(&[], &[], &[1, 1, 0, 0, 0], lent()), Err(Refused::Answers));
}

#[test]
fn version_of_the_header() {
    let header = include_str!("../../../include/futtockfig.h");
    assert!(header.contains(&format!("#define FUTTOCKFIG_VERSION {}\n", futtockfig::VERSION)));
}

#[test]
fn comparisons() {
    let image = seven();
    let all = Comparison { matched: 7, agreeing: 7, only_first: 0, only_second: 0 };
    assert_eq!(compare(&image, &image, 0), Ok(all));
    assert_eq!(compare(&image, &EMPTY, 0), Ok(Comparison { matched: 0, agreeing: 0, only_first: 7, only_second: 0 }));
    let mut heard = seven();
    heard[32..34].copy_from_slice(&[2, 40]);
    assert_eq!(compare(&image, &heard, u32::MAX), Ok(Comparison { agreeing: 6, ..all }));
    heard[9] = 1;
    assert_eq!(compare(&heard, &[], 0), Err(NoImage::FirstRecord));
    assert_eq!(compare(&image, &heard, 0), Err(NoImage::Second));
    assert_eq!(compare(&[], &heard, 0).map_err(NoImage::code), Err(105));
    assert_eq!(NoImage::Second.to_string(), "refused, code 110: the second is no image");
    // a list that begins with a word of another vertex
    let mut list = seven();
    list[64] = 5;
    assert_eq!(compare(&list, &heard, 0), Err(NoImage::FirstList));
}

#[test]
fn pages() {
    let image = seven();
    let mut bytes = [b'#'; 7 * PAGE_ROW + 2];
    let rows = page(&image, &mut bytes).unwrap();
    assert_eq!(rows.len(), 7 * PAGE_ROW);
    assert!(rows.starts_with(b"   1    1    1  0      -\n   2    1    2  0      -\n"));
    assert!(rows.ends_with(b"   7    4    4  0      -\n"));
    assert_eq!(bytes[7 * PAGE_ROW..], *b"##");

    let mut short = [b'#'; 7 * PAGE_ROW - 1];
    assert_eq!(page(&image, &mut short), Err(Refused::Page));
    assert_eq!(page(&image[1..], &mut short), Err(Refused::Start));
    assert_eq!(short, [b'#'; 7 * PAGE_ROW - 1]);
    assert_eq!(page(&[], &mut []), Err(Refused::Start));
    let mut damaged = seven();
    damaged[9] = 1;
    assert_eq!(page(&damaged, &mut []), Err(Refused::Record(9)));
    damaged[9] = image[9];
    damaged[77] = damaged[76];
    assert_eq!(page(&damaged, &mut []), Err(Refused::Incidence(77)));
    assert_eq!(page(&EMPTY, &mut []), Ok([].as_slice()));
}

#[test]
fn orders() {
    let image = seven();
    for words in [&image, &old_words(&image)] {
        let mut list = [9; 16];
        let calls = arrange_vertices(words, &[3, 1, 4, 2], &mut list).unwrap().to_vec();
        assert_eq!(calls, [12, 1, 3, 0, 0, 12, 4, 1, 0, 0, 12, 2, 4, 0, 0]);
        assert_eq!(list[15], 9);
        with(&calls, words, |done| {
            let done = done.unwrap();
            assert!(answers(done.answers).eq([Ok(1), Ok(0), Ok(1)]));
            assert_eq!(part(done.image, Part::Vertices), [3, 0, 0, 0, 1, 0, 0, 6, 4, 0, 0, 4, 2, 0, 0, 4]);
            assert_eq!(part(done.image, Part::Edges), part(&image, Part::Edges));
            assert_eq!(part(done.image, Part::Lists), [2, 3, 4, 6, 9, 11, 10, 12, 14, 15, 5, 7, 8, 13]);
        });
        let calls = arrange_edges(words, &[7, 6, 5, 4, 3, 2, 1], &mut [9; 30]).unwrap().to_vec();
        assert!(calls.starts_with(&[14, 6, 7, 0, 0, 14, 5, 6, 0, 0]));
        with(&calls, words, |done| {
            let numbers: Vec<u32> = part(done.unwrap().image, Part::Edges).chunks(6).map(|e| e[0]).collect();
            assert_eq!(numbers, [7, 6, 5, 4, 3, 2, 1]);
        });
        let calls = arrange_words(words, 4, &[15, 14, 12, 10], &mut [9; 15]).unwrap().to_vec();
        assert_eq!(calls, [16, 14, 15, 0, 0, 16, 12, 14, 0, 0, 16, 10, 12, 0, 0]);
        with(&calls, words, |done| assert!(done.unwrap().image.ends_with(&[5, 7, 8, 13, 15, 14, 12, 10])));
    }
    assert_eq!(arrange_words(&image, 3, &[], &mut []), Ok([].as_slice()));
    assert_eq!(arrange_vertices(&EMPTY, &[], &mut []), Ok([].as_slice()));
}

#[test]
fn orders_refused() {
    let image = seven();
    let mut list = [9; 14];
    assert_eq!(arrange_words(&image, 5, &[], &mut list), Err(NotArranged::Vertex));
    assert_eq!(arrange_words(&image, 0, &[10], &mut list), Err(NotArranged::Vertex));
    // A word twice, words of the other ends, one too few, one too many.
    for wanted in [&[10, 12, 14, 14][..], &[11, 13, 14, 15], &[10, 12, 14], &[10, 12, 14, 15, 15]] {
        assert_eq!(arrange_words(&image, 4, wanted, &mut list), Err(NotArranged::Items));
    }
    assert_eq!(arrange_vertices(&image, &[0, 1, 2, 3], &mut list), Err(NotArranged::Items));
    assert_eq!(arrange_vertices(&image, &[1, 2, 3, 4], &mut list), Err(NotArranged::Room));
    assert_eq!(arrange_edges(&image, &[1, 2, 3, 4, 5, 6], &mut []), Err(NotArranged::Items));
    assert_eq!(arrange_vertices(&image[1..], &[], &mut list), Err(NotArranged::Header));
    let mut damaged = seven();
    damaged[9] = 1;
    assert_eq!(arrange_words(&damaged, 5, &[], &mut list), Err(NotArranged::Record));
    damaged[9] = image[9];
    damaged[77] = damaged[76];
    assert_eq!(arrange_edges(&damaged, &[], &mut list), Err(NotArranged::Incidence));
    assert_eq!(list, [9; 14]);
    assert_eq!(NotArranged::Items.to_string(), "not arranged, code 111: the wanted words are not the items, each once");
}
