//! The compiled recorder against the plain machine's copies.

use super::Lent;
use crate::gen::Random;
use crate::recording::Recorded;
use crate::run::{image_room, Case};
use futtockfig::raw::futtockfig_record;

impl Lent<u32> {
    /// Whether each stretch begins with its copy and all else is as it was.
    fn has_copies(&self, copies: &[Vec<u32>], stretch: usize) -> Result<(), String> {
        let mut wanted = self.before.clone();
        for (k, copy) in copies.iter().enumerate() {
            let at = super::GUARD + k * stretch;
            wanted[at..at + copy.len()].copy_from_slice(copy);
        }
        match (0..wanted.len()).find(|i| self.words[*i] != wanted[*i]) {
            Some(i) => Err(format!("word {} is {}, should be {}", i as isize - super::GUARD as isize, self.words[i], wanted[i])),
            None => Ok(()),
        }
    }
}

/// Records the case with so many words for copies and says how the engine differs from what is wanted.
pub fn compare_recording(case: &Case, room: usize, wanted: &Recorded, junk: u64) -> Result<(), String> {
    let mut r = Random::new(junk);
    let mut vertices = Lent::new(&mut r, case.vertices);
    let mut edges = Lent::new(&mut r, case.edges);
    let mut journal = Lent::new(&mut r, case.journal);
    let mut answers = Lent::new(&mut r, case.answers);
    let mut image = Lent::new(&mut r, case.image);
    let mut copies = Lent::new(&mut r, room);
    let (start, rows, calls) = (case.start.clone(), case.rows.clone(), case.calls.clone());
    let raw = {
        let (v, e, j) = (vertices.slice(), edges.slice(), journal.slice());
        let (a, i, c) = (answers.slice(), image.slice(), copies.slice());
        // SAFETY: every pointer is to its own slice of the given length, and no two overlap.
        unsafe {
            futtockfig_record(
                start.as_ptr(),
                start.len(),
                rows.as_ptr(),
                rows.len(),
                calls.as_ptr(),
                calls.len(),
                v.as_mut_ptr(),
                v.len(),
                e.as_mut_ptr(),
                e.len(),
                j.as_mut_ptr(),
                j.len(),
                a.as_mut_ptr(),
                a.len(),
                i.as_mut_ptr(),
                i.len(),
                c.as_mut_ptr(),
                c.len(),
            )
        }
    };
    if (&start, &rows, &calls) != (&case.start, &case.rows, &case.calls) {
        return Err("a word lent for reading changed".into());
    }
    let all = [("vertices", &vertices), ("edges", &edges), ("journal", &journal), ("answers", &answers), ("image", &image), ("copies", &copies)];
    if let Some((name, _)) = all.iter().find(|lent| !lent.1.guards_kept()) {
        return Err(format!("a word outside {name} changed"));
    }
    let result = (raw.code, raw.done, raw.words);
    let due = match wanted {
        Recorded::Refused(code, number) => (*code, *number, 0),
        Recorded::Done { answers, image, .. } => (0, answers.len() / 2, image.len()),
    };
    if result != due {
        return Err(format!("result is {result:?}, should be {due:?}"));
    }
    match wanted {
        Recorded::Refused(..) => match all.iter().find(|lent| !lent.1.whole()) {
            Some((name, _)) => Err(format!("the list was refused, and a word of {name} changed")),
            None => Ok(()),
        },
        Recorded::Done { answers: wanted_answers, image: wanted_image, copies: wanted_copies } => {
            answers.begins_with(wanted_answers).map_err(|e| format!("answers: {e}"))?;
            image.begins_with(wanted_image).map_err(|e| format!("image: {e}"))?;
            copies.has_copies(wanted_copies, image_room(case.capacities())).map_err(|e| format!("copies: {e}"))
        }
    }
}
