//! The least list whose last call still gets its code.

use crate::raw::futtockfig_reduce;
use crate::{Lent, Refused};

/// What is left of a list.
#[derive(Debug, PartialEq, Eq)]
pub struct Reduced<'a> {
    /// The calls kept, five words each, in their order; the last is that of the list as sent.
    pub calls: &'a [u32],
    /// The lists that were run: the one as sent, and each that was tried.
    pub runs: usize,
}

/// Leaves out calls of a list that ends with a refused one, as long as the last call keeps its code.
///
/// First the whole list is run. Then come tries, runs with one call left out: each call in turn, beginning with the first,
/// but never the last. Where the last call has its code again, the call that was left out is gone, and the next try leaves
/// out the first call of what remains. So what is left has the same code, and another, or none, if any call but the last is
/// taken away. Each run begins on a fresh store with `start`. There may be n(n - 1) / 2 tries for n calls.
///
/// The calls kept are written to the front of `list`, whose other words stay; tables and answers are left with words that
/// mean nothing, `image` is only measured. After all that [`run`](crate::run) refuses come [`Refused::List`] and
/// [`Refused::NoFailure`].
///
/// ```
/// use futtockfig::{image_words, kind, reduce, Lent, EMPTY};
///
/// let calls = [[kind::CREATE_VERTEX, 1, 0, 0, 0], [kind::SET_MARK, 5, 0, 0, 0], [kind::SET_MARK, 5, 0, 0, 0]].concat();
/// let (mut vertices, mut edges, mut journal) = ([0; 8], [0; 12], [0; 60]);
/// let (mut answers, mut image, mut list) = ([0; 6], [0; image_words(1, 1)], [0; 15]);
/// let lent = Lent { vertices: &mut vertices, edges: &mut edges, journal: &mut journal, answers: &mut answers, image: &mut image };
/// let reduced = reduce(&EMPTY, &[0], &calls, lent, &mut list).unwrap();
/// assert_eq!((reduced.calls, reduced.runs), (&calls[5..], 3));
/// ```
pub fn reduce<'a>(start: &[u32], rows: &[u64], calls: &[u32], lent: Lent<'_>, list: &'a mut [u32]) -> Result<Reduced<'a>, Refused> {
    let Lent { vertices, edges, journal, answers, image } = lent;
    // SAFETY: each pointer and length is that of a slice, so no pointer is null; the slices that are written are borrowed
    // mutably, so none overlaps another. The function keeps no pointer.
    let result = unsafe {
        futtockfig_reduce(
            start.as_ptr(),
            start.len(),
            rows.as_ptr(),
            rows.len(),
            calls.as_ptr(),
            calls.len(),
            vertices.as_mut_ptr(),
            vertices.len(),
            edges.as_mut_ptr(),
            edges.len(),
            journal.as_mut_ptr(),
            journal.len(),
            answers.as_mut_ptr(),
            answers.len(),
            image.as_ptr(),
            image.len(),
            list.as_mut_ptr(),
            list.len(),
        )
    };
    match result.code {
        0 => Ok(Reduced { calls: &list[..5 * result.kept], runs: result.runs }),
        code => Err(Refused::of(code, result.kept)),
    }
}
