//! The compiled reduction against the procedure on the plain machine.

use super::Lent;
use crate::gen::Random;
use crate::reduction::Reduced;
use crate::run::Case;
use futtockfig::raw::futtockfig_reduce;

/// Reduces the case with a list of so many words and says how the engine differs from what is wanted.
pub fn compare_reduction(case: &Case, room: usize, wanted: &Reduced, junk: u64) -> Result<(), String> {
    let mut r = Random::new(junk);
    let mut vertices = Lent::new(&mut r, case.vertices);
    let mut edges = Lent::new(&mut r, case.edges);
    let mut journal = Lent::new(&mut r, case.journal);
    let mut answers = Lent::new(&mut r, case.answers);
    let mut image = Lent::new(&mut r, case.image);
    let mut list = Lent::new(&mut r, room);
    let (start, rows, calls) = (case.start.clone(), case.rows.clone(), case.calls.clone());
    let raw = {
        let (v, e, j) = (vertices.slice(), edges.slice(), journal.slice());
        let (a, i, l) = (answers.slice(), image.slice(), list.slice());
        // SAFETY: every pointer is to its own slice of the given length, and no two overlap.
        unsafe {
            futtockfig_reduce(
                start.as_ptr(),
                start.len(),
                rows.as_ptr(),
                rows.len(),
                calls.as_ptr(),
                calls.len(),
                v.as_mut_ptr(),
                v.len(),
                e.as_mut_ptr(),
                e.len(),
                j.as_mut_ptr(),
                j.len(),
                a.as_mut_ptr(),
                a.len(),
                i.as_ptr(),
                i.len(),
                l.as_mut_ptr(),
                l.len(),
            )
        }
    };
    if (&start, &rows, &calls) != (&case.start, &case.rows, &case.calls) || !image.whole() {
        return Err("a word lent for reading changed".into());
    }
    let free = [("vertices", &vertices), ("edges", &edges), ("journal", &journal), ("answers", &answers)];
    if let Some((name, _)) = free.iter().chain([&("list", &list)]).find(|lent| !lent.1.guards_kept()) {
        return Err(format!("a word outside {name} changed"));
    }
    let result = (raw.code, raw.kept, raw.runs);
    let (due, calls) = match wanted {
        Reduced::Refused(code, number) => ((*code, *number, 0), &[][..]),
        Reduced::Done { calls, runs } => ((0, calls.len() / 5, *runs), &calls[..]),
    };
    if result != due {
        return Err(format!("result is {result:?}, should be {due:?}"));
    }
    if !matches!(raw.code, 0 | 115) {
        if let Some((name, _)) = free.iter().find(|lent| !lent.1.whole()) {
            return Err(format!("the list was refused, and a word of {name} changed"));
        }
    }
    list.begins_with(calls).map_err(|e| format!("list: {e}"))
}
