//! A run of several stores with one limit.

use crate::raw::futtockfig_run_stores;
use crate::{Lent, Refused};

/// The store's number, from 1, then kind, a, b, c, d.
pub type StoreCall = [u32; 6];

/// What an accepted list of several stores gives. Words of the lent slices beyond these stay as they were.
#[derive(Debug, PartialEq, Eq)]
pub struct Served<'a> {
    /// Code and number of each call, in order; 21 and 0 where there is no such store.
    pub answers: &'a [u32],
    images: &'a [u32],
    part: usize,
    stores: usize,
}

impl<'a> Served<'a> {
    /// The graphs at the end, that of store 1 first.
    pub fn images(&self) -> impl Iterator<Item = &'a [u32]> + '_ {
        self.images.chunks_exact(self.part).take(self.stores).map(|part| &part[..part[5] as usize])
    }
}

/// Runs a list of calls on up to [`MOST_STORES`](crate::MOST_STORES) stores, each with a graph and a history of its own.
///
/// The tables and the image of `lent` are cut into as many parts of length ÷ `stores` words, rounded down; store s has the
/// s-th of each, and its capacities are those of a part. `start` has the images to start from, one right behind the other.
/// `calls` has six words a call ([`StoreCall`]); a number that is no store's answers 21.
///
/// `limit` is how many changes all stores may remember together. The joint room is what the steps up to the present place
/// of each leave of it. A store has free what its own part of the journal leaves, and no more than the joint room; a
/// change that costs more is refused with 10, and so is a redo or a going ahead whose steps cost more.
///
/// With [`Refused::Record`] and [`Refused::Incidence`] the offset is counted from the first word of `start`.
///
/// ```
/// use futtockfig::{answers, image_words, kind, run_stores, Lent, StoreCall, EMPTY};
///
/// // Two stores, one change: the second has it when the first undoes.
/// let calls: [StoreCall; 5] = [
///     [1, kind::CREATE_VERTEX, 1, 0, 7, 0],
///     [2, kind::CREATE_VERTEX, 1, 0, 8, 0],
///     [1, kind::UNDO, 0, 0, 0, 0],
///     [2, kind::CREATE_VERTEX, 1, 0, 8, 0],
///     [1, kind::REDO, 0, 0, 0, 0],
/// ];
/// let (mut vertices, mut edges, mut journal) = ([0; 2 * 8], [0; 2 * 12], [0; 2 * 60]);
/// let (mut words, mut image) = ([0; 10], [0; 2 * image_words(1, 1)]);
/// let lent = Lent { vertices: &mut vertices, edges: &mut edges, journal: &mut journal, answers: &mut words, image: &mut image };
/// let served = run_stores(&[EMPTY, EMPTY].concat(), &[0], &calls.concat(), lent, 2, 1).unwrap();
/// assert!(answers(served.answers).eq([Ok(1), Err(10), Ok(1), Ok(1), Err(10)]));
/// assert!(served.images().eq([&EMPTY[..], &[1, 0, 6, 10, 10, 10, 1, 0, 8, 0]]));
/// ```
pub fn run_stores<'a>(start: &[u32], rows: &[u64], calls: &[u32], lent: Lent<'a>, stores: u32, limit: u32) -> Result<Served<'a>, Refused> {
    let Lent { vertices, edges, journal, answers, image } = lent;
    // SAFETY: as in `run`.
    let result = unsafe {
        futtockfig_run_stores(
            start.as_ptr(),
            start.len(),
            rows.as_ptr(),
            rows.len(),
            calls.as_ptr(),
            calls.len(),
            vertices.as_mut_ptr(),
            vertices.len(),
            edges.as_mut_ptr(),
            edges.len(),
            journal.as_mut_ptr(),
            journal.len(),
            answers.as_mut_ptr(),
            answers.len(),
            image.as_mut_ptr(),
            image.len(),
            stores,
            limit,
        )
    };
    match result.code {
        0 => {
            // At least one store, and each part has room for an image.
            let stores = stores as usize;
            Ok(Served { answers: &answers[..2 * result.done], part: image.len() / stores, images: image, stores })
        }
        code => Err(Refused::of(code, result.done)),
    }
}
