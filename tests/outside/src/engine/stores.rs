//! The compiled run of several stores against as many plain machines.

use super::{Lent, GUARD};
use crate::gen::Random;
use crate::stores::{over_parts, Ended, Several};
use futtockfig::raw::futtockfig_run_stores;

/// Runs the stores and says how the engine differs from what is wanted.
pub fn compare_stores(several: &Several, wanted: &Ended, junk: u64) -> Result<(), String> {
    let mut r = Random::new(junk);
    let case = &several.case;
    let mut tables = [case.vertices, case.edges, case.journal].map(|len| Lent::new(&mut r, len));
    let mut answers = Lent::new(&mut r, case.answers);
    let mut image = Lent::new(&mut r, case.image);
    let (start, rows, calls) = (case.start.clone(), case.rows.clone(), case.calls.clone());
    let raw = {
        let [v, e, j] = tables.each_mut().map(Lent::slice);
        let (a, i) = (answers.slice(), image.slice());
        // SAFETY: every pointer is to its own slice of the given length, and no two overlap.
        unsafe {
            futtockfig_run_stores(
                start.as_ptr(),
                start.len(),
                rows.as_ptr(),
                rows.len(),
                calls.as_ptr(),
                calls.len(),
                v.as_mut_ptr(),
                v.len(),
                e.as_mut_ptr(),
                e.len(),
                j.as_mut_ptr(),
                j.len(),
                a.as_mut_ptr(),
                a.len(),
                i.as_mut_ptr(),
                i.len(),
                several.stores,
                several.limit,
            )
        }
    };
    if (&start, &rows, &calls) != (&case.start, &case.rows, &case.calls) {
        return Err("a word lent for reading changed".into());
    }
    let named = [("vertices", &tables[0]), ("edges", &tables[1]), ("journal", &tables[2]), ("answers", &answers), ("image", &image)];
    if let Some((name, _)) = named.iter().find(|lent| !lent.1.guards_kept()) {
        return Err(format!("a word outside {name} changed"));
    }
    let result = (raw.code, raw.done, raw.words);
    let due = match wanted {
        Ended::Refused(code, number) => (*code, *number, 0),
        Ended::Done { answers, images } => (0, answers.len() / 2, images.iter().map(Vec::len).sum()),
    };
    if result != due {
        return Err(format!("result is {result:?}, should be {due:?}"));
    }
    let Ended::Done { answers: wanted, images } = wanted else {
        return match named.iter().find(|lent| !lent.1.whole()) {
            Some((name, _)) => Err(format!("the list was refused, and a word of {name} changed")),
            None => Ok(()),
        };
    };
    // Of each table, the words behind the last part stay.
    for (name, lent) in &named[..3] {
        let end = lent.words.len() - GUARD;
        let parts = (end - GUARD) / images.len() * images.len();
        if lent.words[GUARD + parts..] != lent.before[GUARD + parts..] {
            return Err(format!("a word behind the last part of {name} changed"));
        }
    }
    answers.begins_with(wanted).map_err(|e| format!("answers: {e}"))?;
    let end = image.before.len() - GUARD;
    image.begins_with(&over_parts(images, &image.before[GUARD..end])).map_err(|e| format!("images: {e}"))
}
