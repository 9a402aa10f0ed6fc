//! A pair is repaired and every graph on the way is shown: the pages of the copies, one after another.

use futtockfig::{image_words, kind, page, record, Call, Lent, EMPTY, PAGE_ROW};

const VERTICES: usize = 10;
const EDGES: usize = 20;
const CHANGES: usize = 100;

fn main() -> Result<(), String> {
    // Units 1 and 2, reading 1 from 1 to 2 and reading 2 back. An aerial is tried, and the pair goes back to the mark.
    let calls: [Call; 13] = [
        [kind::CREATE_VERTEX, 1, 0, 0, 0],
        [kind::CREATE_VERTEX, 2, 0, 0, 0],
        [kind::CREATE_EDGE, 1, 1, 2, 0],
        [kind::CREATE_EDGE, 2, 2, 1, 0],
        [kind::SET_READING, 1, 2, 900, 0],
        [kind::SET_READING, 2, 1, 0, 0],
        [kind::SET_MARK, 1, 0, 0, 0],
        [kind::SET_READING, 2, 2, 150, 0],
        [kind::SET_READING, 2, 2, 150, 0],
        [kind::GO_TO_MARK, 1, 0, 0, 0],
        [kind::SET_READING, 2, 2, 1_300, 0],
        [kind::EDGE_BEFORE, 2, 1, 0, 0],
        [kind::SET_READING, 3, 2, 1, 0],
    ];
    let changes = calls.iter().filter(|call| call[0] <= kind::WORD_AFTER).count();
    let (mut vertices, mut edges, mut journal) = ([0; 8 * VERTICES], [0; 12 * EDGES], [0; 12 * CHANGES]);
    let mut answers = vec![0; 2 * calls.len()];
    let mut image = [0; image_words(VERTICES, EDGES)];
    let mut copies = vec![0; changes * image_words(VERTICES, EDGES)];
    let lent = Lent { vertices: &mut vertices, edges: &mut edges, journal: &mut journal, answers: &mut answers, image: &mut image };
    let recorded = record(&EMPTY, &[0], &calls.concat(), lent, &mut copies).map_err(|refused| refused.to_string())?;
    let mut rows = [0; EDGES * PAGE_ROW];
    for (k, copy) in recorded.copies().enumerate() {
        println!("step {}, {} units", k + 1, copy[0]);
        print!("{}", String::from_utf8_lossy(page(copy, &mut rows).map_err(|refused| refused.to_string())?));
    }
    println!("at the end");
    print!("{}", String::from_utf8_lossy(page(recorded.done.image, &mut rows).map_err(|refused| refused.to_string())?));
    Ok(())
}
