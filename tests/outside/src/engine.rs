//! The compiled engine, called through its C interface with guarded slices full of junk.

use crate::comparison;
use crate::gen::Random;
use crate::image;
use crate::order::{Items, Order};
use crate::page;
use crate::run::{Case, Outcome};
use futtockfig::raw::{futtockfig_arrange_edges, futtockfig_arrange_vertices, futtockfig_arrange_words};
use futtockfig::raw::{futtockfig_compare, futtockfig_page, futtockfig_part, futtockfig_run};
use std::fmt::Display;

mod recording;
pub use recording::compare_recording;
mod reduction;
pub use reduction::compare_reduction;
mod stores;
pub use stores::compare_stores;

/// Words before and after each lent slice, which no run may touch.
const GUARD: usize = 64;

/// A lent slice of junk between guards.
struct Lent<T> {
    words: Vec<T>,
    before: Vec<T>,
}

impl Lent<u32> {
    fn new(r: &mut Random, len: usize) -> Lent<u32> {
        let words = r.junk(len + 2 * GUARD);
        Lent { before: words.clone(), words }
    }
}

impl Lent<u8> {
    fn bytes(r: &mut Random, len: usize) -> Lent<u8> {
        let words: Vec<u8> = r.junk(len + 2 * GUARD).iter().map(|w| *w as u8).collect();
        Lent { before: words.clone(), words }
    }
}

impl<T: PartialEq + Display> Lent<T> {
    fn slice(&mut self) -> &mut [T] {
        let end = self.words.len() - GUARD;
        &mut self.words[GUARD..end]
    }

    fn whole(&self) -> bool {
        self.words == self.before
    }

    fn guards_kept(&self) -> bool {
        let end = self.words.len() - GUARD;
        self.words[..GUARD] == self.before[..GUARD] && self.words[end..] == self.before[end..]
    }

    /// Whether the slice begins with these words and is else as it was.
    fn begins_with(&self, wanted: &[T]) -> Result<(), String> {
        let end = GUARD + wanted.len();
        for (i, word) in wanted.iter().enumerate() {
            if self.words[GUARD + i] != *word {
                return Err(format!("word {i} is {}, should be {word}", self.words[GUARD + i]));
            }
        }
        match (end..self.words.len()).find(|i| self.words[*i] != self.before[*i]) {
            Some(i) => Err(format!("word {}, beyond what is written, changed", i - GUARD)),
            None => Ok(()),
        }
    }
}

/// Runs the engine on the case and says how it differs from what is wanted.
pub fn compare(case: &Case, wanted: &Outcome, junk: u64) -> Result<(), String> {
    let mut r = Random::new(junk);
    let mut vertices = Lent::new(&mut r, case.vertices);
    let mut edges = Lent::new(&mut r, case.edges);
    let mut journal = Lent::new(&mut r, case.journal);
    let mut answers = Lent::new(&mut r, case.answers);
    let mut image = Lent::new(&mut r, case.image);
    let (start, rows, calls) = (case.start.clone(), case.rows.clone(), case.calls.clone());
    let raw = {
        let (v, e, j, a, i) = (vertices.slice(), edges.slice(), journal.slice(), answers.slice(), image.slice());
        // SAFETY: every pointer is to its own slice of the given length, and no two overlap.
        unsafe {
            futtockfig_run(
                start.as_ptr(),
                start.len(),
                rows.as_ptr(),
                rows.len(),
                calls.as_ptr(),
                calls.len(),
                v.as_mut_ptr(),
                v.len(),
                e.as_mut_ptr(),
                e.len(),
                j.as_mut_ptr(),
                j.len(),
                a.as_mut_ptr(),
                a.len(),
                i.as_mut_ptr(),
                i.len(),
            )
        }
    };
    if (&start, &rows, &calls) != (&case.start, &case.rows, &case.calls) {
        return Err("a word lent for reading changed".into());
    }
    for (name, lent) in [("vertices", &vertices), ("edges", &edges), ("journal", &journal), ("answers", &answers), ("image", &image)] {
        if !lent.guards_kept() {
            return Err(format!("a word outside {name} changed"));
        }
    }
    let result = (raw.code, raw.done, raw.words);
    match wanted {
        Outcome::Refused(code, number) => {
            if result != (*code, *number, 0) {
                return Err(format!("result is {result:?}, should be {:?}", (code, number, 0)));
            }
            for (name, lent) in [("vertices", &vertices), ("edges", &edges), ("journal", &journal), ("answers", &answers), ("image", &image)] {
                if !lent.whole() {
                    return Err(format!("the list was refused, and a word of {name} changed"));
                }
            }
            Ok(())
        }
        Outcome::Done { answers: wanted_answers, image: wanted_image } => {
            let due = (0, wanted_answers.len() / 2, wanted_image.len());
            if result != due {
                return Err(format!("result is {result:?}, should be {due:?}"));
            }
            answers.begins_with(wanted_answers).map_err(|e| format!("answers: {e}"))?;
            image.begins_with(wanted_image).map_err(|e| format!("image: {e}"))
        }
    }
}

/// Compares the parts of some words.
pub fn compare_parts(words: &[u32]) -> Result<(), String> {
    for which in [0, 1, 2, 3, 4, u32::MAX] {
        // SAFETY: the pointer is to a slice of the given length.
        let span = unsafe { futtockfig_part(words.as_ptr(), words.len(), which) };
        // Also an empty part has the header's offset; where there is no part, offset and length are 0.
        let (offset, len) = image::part(words, which).unwrap_or((0, 0));
        if (span.offset, span.len) != (offset, len) {
            return Err(format!("part {which} is {} words from {}, should be {len} from {offset}", span.len, span.offset));
        }
    }
    Ok(())
}

/// Compares the page of some words in a page of so many bytes. The code is returned.
pub fn compare_page(words: &[u32], room: usize, junk: u64) -> Result<u32, String> {
    let mut lent = Lent::bytes(&mut Random::new(junk), room);
    let before = words.to_vec();
    let raw = {
        let slice = lent.slice();
        // SAFETY: each pointer is to its own slice of the given length, and the two do not overlap.
        unsafe { futtockfig_page(words.as_ptr(), words.len(), slice.as_mut_ptr(), slice.len()) }
    };
    if words != before {
        return Err("a word lent for reading changed".into());
    }
    let (code, bytes, rows) = match page::page(words, room) {
        Ok(rows) => (0, rows.len(), rows),
        Err((code, number)) => (code, number, vec![]),
    };
    if (raw.code, raw.bytes) != (code, bytes) {
        return Err(format!("result is {:?}, should be {:?}", (raw.code, raw.bytes), (code, bytes)));
    }
    if !lent.guards_kept() {
        return Err("a byte outside the page changed".into());
    }
    lent.begins_with(&rows).map(|_| code)
}

/// Compares the comparison of two images. The code is returned.
pub fn compare_images(first: &[u32], second: &[u32], tolerance: u32) -> Result<u32, String> {
    let before = (first.to_vec(), second.to_vec());
    // SAFETY: each pointer is to a slice of the given length.
    let raw = unsafe { futtockfig_compare(first.as_ptr(), first.len(), second.as_ptr(), second.len(), tolerance) };
    if (first, second) != (&before.0[..], &before.1[..]) {
        return Err("a word lent for reading changed".into());
    }
    let (code, counts) = comparison::compare(first, second, tolerance).map_or_else(|code| (code, [0; 4]), |counts| (0, counts));
    let result = (raw.code, [raw.matched, raw.agreeing, raw.only_first, raw.only_second]);
    if result != (code, counts) {
        return Err(format!("result is {result:?}, should be {:?}", (code, counts)));
    }
    Ok(code)
}

/// Compares the calls for an order, and with code 0 what a run of them on the same chart leaves. The code is returned.
pub fn compare_order(order: &Order, junk: u64) -> Result<u32, String> {
    let mut lent = Lent::new(&mut Random::new(junk), order.room);
    let Order { words, items, wanted, .. } = order.clone();
    let raw = {
        let list = lent.slice();
        let (chart, chart_len, row, row_len) = (words.as_ptr(), words.len(), wanted.as_ptr(), wanted.len());
        // SAFETY: each pointer is to its own slice of the given length, and no two overlap.
        unsafe {
            match items {
                Items::Vertices => futtockfig_arrange_vertices(chart, chart_len, row, row_len, list.as_mut_ptr(), list.len()),
                Items::Edges => futtockfig_arrange_edges(chart, chart_len, row, row_len, list.as_mut_ptr(), list.len()),
                Items::List(vertex) => futtockfig_arrange_words(chart, chart_len, vertex, row, row_len, list.as_mut_ptr(), list.len()),
            }
        }
    };
    if (&words, &wanted) != (&order.words, &order.wanted) {
        return Err("a word lent for reading changed".into());
    }
    let due = order.calls();
    let (code, calls) = due.as_ref().map_or_else(|code| (*code, 0), |calls| (0, calls.len() / 5));
    if (raw.code, raw.calls) != (code, calls) {
        return Err(format!("result is {:?}, should be {:?}", (raw.code, raw.calls), (code, calls)));
    }
    if !lent.guards_kept() {
        return Err("a word outside the list changed".into());
    }
    lent.begins_with(due.as_deref().unwrap_or_default())?;
    if code == 0 {
        let (case, outcome) = order.arrival(&lent.slice()[..5 * calls]);
        compare(&case, &outcome, junk).map_err(|message| format!("run of the calls: {message}"))?;
    }
    Ok(code)
}
