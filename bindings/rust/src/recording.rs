//! A run that keeps a copy of the graph after every step.

use crate::raw::futtockfig_record;
use crate::{image_words, kind, Done, Lent, Refused, EDGE_WORDS, VERTEX_WORDS};

/// What a recorded list gives: the run's, and the copies.
#[derive(Debug, PartialEq, Eq)]
pub struct Recorded<'a> {
    /// The answers and the graph at the end, as [`run`](crate::run) gives them.
    pub done: Done<'a>,
    /// The steps made, each with its copy.
    pub steps: usize,
    words: &'a [u32],
    stretch: usize,
}

impl<'a> Recorded<'a> {
    /// The images after the first, second, .. step made, in the order in which they were made.
    pub fn copies(&self) -> impl Iterator<Item = &'a [u32]> + '_ {
        self.words.chunks_exact(self.stretch).take(self.steps).map(|copy| &copy[..copy[5] as usize])
    }
}

/// Runs a list as [`run`](crate::run) does, and keeps a copy of the graph after every step.
///
/// A copy has [`image_words`] of the capacities; the k-th step made has the k-th such stretch of `copies` and writes its
/// image to the front. Steps that are undone, cut or committed later are among them. All other words of `copies` stay.
/// [`Refused::Copies`] comes after all that [`run`](crate::run) refuses: the list has more calls of kinds 1 to 16, accepted
/// or not, than `copies` has stretches. The call takes some 282 KB of stack.
///
/// ```
/// use futtockfig::{image_words, kind, record, Lent, EMPTY};
///
/// let calls = [[kind::CREATE_VERTEX, 1, 0, 7, 0], [kind::SET_VALUE, 1, 8, 0, 0], [kind::UNDO, 0, 0, 0, 0]].concat();
/// let (mut vertices, mut edges, mut journal) = ([0; 8], [0; 12], [0; 60]);
/// let (mut answers, mut image, mut copies) = ([0; 6], [0; image_words(1, 1)], [0; 2 * image_words(1, 1)]);
/// let lent = Lent { vertices: &mut vertices, edges: &mut edges, journal: &mut journal, answers: &mut answers, image: &mut image };
/// let recorded = record(&EMPTY, &[0], &calls, lent, &mut copies).unwrap();
/// assert_eq!(recorded.done.image, [1, 0, 6, 10, 10, 10, 1, 0, 7, 0]);
/// assert!(recorded.copies().eq([[1, 0, 6, 10, 10, 10, 1, 0, 7, 0], [1, 0, 6, 10, 10, 10, 1, 0, 8, 0]]));
/// ```
pub fn record<'a>(start: &[u32], rows: &[u64], calls: &[u32], lent: Lent<'a>, copies: &'a mut [u32]) -> Result<Recorded<'a>, Refused> {
    let Lent { vertices, edges, journal, answers, image } = lent;
    let stretch = image_words(vertices.len() / VERTEX_WORDS, edges.len() / EDGE_WORDS);
    // SAFETY: as in `run`.
    let result = unsafe {
        futtockfig_record(
            start.as_ptr(),
            start.len(),
            rows.as_ptr(),
            rows.len(),
            calls.as_ptr(),
            calls.len(),
            vertices.as_mut_ptr(),
            vertices.len(),
            edges.as_mut_ptr(),
            edges.len(),
            journal.as_mut_ptr(),
            journal.len(),
            answers.as_mut_ptr(),
            answers.len(),
            image.as_mut_ptr(),
            image.len(),
            copies.as_mut_ptr(),
            copies.len(),
        )
    };
    if result.code != 0 {
        return Err(Refused::of(result.code, result.done));
    }
    let done = Done { answers: &answers[..2 * result.done], image: &image[..result.words] };
    // A change whose number is not 0 is a step; a refused call's number is 0.
    let made = |(call, answer): (&[u32], &[u32])| (kind::CREATE_VERTEX..=kind::WORD_AFTER).contains(&call[0]) && answer[1] != 0;
    let steps = calls.chunks_exact(5).zip(done.answers.chunks_exact(2)).filter(|pair| made(*pair)).count();
    Ok(Recorded { done, steps, words: copies, stretch })
}
