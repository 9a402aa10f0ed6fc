//! Futtockfig: an ordered graph with history and marks, kept in tables that the caller lends.
//!
//! A list of calls is run by [`run`]; each call is five words and is answered by two, a code and a number. The graph
//! goes in and out as an image, whose parts [`part`] and [`span`] find, whose edges [`page`] puts on paper, and
//! which [`compare`] holds against another.
//! [`arrange_vertices`], [`arrange_edges`] and [`arrange_words`] make the calls for any order. [`record`] runs a list and
//! keeps the image after every step. [`reduce`] makes a list small whose last call is refused. [`run_stores`] runs a list on
//! several stores with one limit.
//! `include/futtockfig.h` describes the graph, every kind of call ([`kind`]), every code ([`code`]), the words of an
//! image, a page, a comparison, an order, a recorded list, a reduced one and a list of several stores.
//!
//! The crate links `libfuttockfig.a`, from the folder that the environment variable `FUTTOCKFIG_LIB_DIR` names when it
//! is built, else from `crates/futtockfig/out` of the repository. It allocates nothing and needs no standard library.
//!
//! ```
//! use futtockfig::{answers, image_words, kind, run, Call, Lent, EMPTY};
//!
//! let calls: [Call; 2] = [[kind::CREATE_VERTEX, 1, 0, 7, 0], [kind::VALUE, 1, 0, 0, 0]];
//! let (mut vertices, mut edges, mut journal) = ([0; 8 * 10], [0; 12 * 10], [0; 12 * 20]);
//! let (mut answer_words, mut image) = ([0; 4], [0; image_words(10, 10)]);
//! let lent = Lent {
//!     vertices: &mut vertices,
//!     edges: &mut edges,
//!     journal: &mut journal,
//!     answers: &mut answer_words,
//!     image: &mut image,
//! };
//! let done = run(&EMPTY, &[0], &calls.concat(), lent).unwrap();
//! assert_eq!(done.image, [1, 0, 6, 10, 10, 10, 1, 0, 7, 0]);
//! assert!(answers(done.answers).eq([Ok(1), Ok(7)]));
//! ```

#![no_std]
#![warn(missing_docs)]

pub mod code;
pub mod kind;
mod limits;
pub use limits::*;
pub mod raw;
mod recording;
pub use recording::{record, Recorded};
mod reduction;
pub use reduction::{reduce, Reduced};
mod stores;
pub use stores::{run_stores, Served, StoreCall};

use core::fmt;
use core::ops::Range;
use raw::{futtockfig_arrange_edges, futtockfig_arrange_vertices, futtockfig_arrange_words};
use raw::{futtockfig_compare, futtockfig_page, futtockfig_part, futtockfig_run, futtockfig_version};

/// The version of what a caller sees, that of `include/futtockfig.h`; the crate's own has `.0.0` behind it. A rise means
/// that something a caller can see is new or different, as `docs/CHANGES.md` tells under that number.
pub const VERSION: u32 = 17;

/// Kind, a, b, c, d.
pub type Call = [u32; 5];

/// The image of the graph without vertices.
pub const EMPTY: [u32; 6] = [0, 0, 6, 6, 6, 6];

/// Words of a row of the vertex table.
pub const VERTEX_WORDS: usize = 8;
/// Words of a row of the edge table.
pub const EDGE_WORDS: usize = 12;
/// Words of a row of the journal.
pub const CHANGE_WORDS: usize = 12;

/// The most stores of one run.
pub const MOST_STORES: u32 = 8;

/// The version of the archive that is linked. It is [`VERSION`], unless the archive is another one.
pub fn version() -> u32 {
    // SAFETY: it takes nothing and touches nothing.
    unsafe { futtockfig_version() }
}

/// Bytes of a row of a page.
pub const PAGE_ROW: usize = 25;

/// Words of an image with this many vertices and edges, as one is written. With the capacities: what [`Lent::image`]
/// needs.
pub const fn image_words(vertices: usize, edges: usize) -> usize {
    6 + 4 * vertices + 8 * edges
}

/// The two words of a mark's name for [`kind::NAME_MARK`] and [`kind::GO_TO_NAME`]: up to eight bytes of text, the first
/// lowest in the first word, with zeros behind. `None` where there are more, or none that is not 0.
///
/// ```
/// assert_eq!(futtockfig::name("received"), Some([0x6563_6572, 0x6465_7669]));
/// assert_eq!(futtockfig::name("as received"), None);
/// ```
pub fn name(text: &str) -> Option<[u32; 2]> {
    let mut bytes = [0; 8];
    bytes.get_mut(..text.len())?.copy_from_slice(text.as_bytes());
    let [a, b, c, d, e, f, g, h] = bytes;
    (bytes != [0; 8]).then_some([u32::from_le_bytes([a, b, c, d]), u32::from_le_bytes([e, f, g, h])])
}

/// What a run writes to. The words found there do not matter.
pub struct Lent<'a> {
    /// 8 words a vertex; the capacity, 1 to 1,000, is the length ÷ 8, rounded down.
    pub vertices: &'a mut [u32],
    /// 12 words an edge; the capacity, 1 to 4,000, is the length ÷ 12, rounded down.
    pub edges: &'a mut [u32],
    /// 12 words a change; the capacity, 1 to 20,000, is the length ÷ 12, rounded down.
    pub journal: &'a mut [u32],
    /// At least two words a call.
    pub answers: &'a mut [u32],
    /// At least [`image_words`] of the capacities.
    pub image: &'a mut [u32],
}

/// What an accepted list gives. Words of the lent slices beyond these stay as they were.
#[derive(Debug, PartialEq, Eq)]
pub struct Done<'a> {
    /// Code and number of each call, in order.
    pub answers: &'a [u32],
    /// The graph at the end.
    pub image: &'a [u32],
}

/// Why a whole list or a page was refused. Nothing was written, but with [`Refused::NoFailure`]: tables and answers then hold
/// words that mean nothing.
#[derive(Clone, Copy, Debug, PartialEq, Eq)]
#[non_exhaustive]
pub enum Refused {
    /// 101: the words of the calls are no multiple of five, with several stores of six.
    Calls,
    /// 102: fewer than two words a call for the answers.
    Answers,
    /// 103: a capacity out of range, or the number of stores.
    Capacity,
    /// 104: no type row, over 64, or a bit set that names no type.
    Rows,
    /// 105: the header of the start, or of what is to be a page, is not sound, a count is above its capacity, or there are
    /// edges and no vertex.
    Start,
    /// 106: too few words for the image.
    Image,
    /// 107: too few bytes for the page.
    Page,
    /// 108: a vertex or edge record of the start, or of what is to be a page, is bad, its degree included; the offset of
    /// the first bad word, from 0. Degrees come after all other words of records.
    Record(usize),
    /// 109: the records are good and a list is bad; the offset of the first bad word, from 0.
    Incidence(usize),
    /// 113: more calls of kinds 1 to 16 than there is room for copies.
    Copies,
    /// 114: a list to be reduced has over 20,000 calls, or is longer than the list to write to.
    List,
    /// 115: a list to be reduced is empty, or its last call is accepted.
    NoFailure,
    /// A code that the header does not name.
    Other(u32),
}

impl Refused {
    /// The code of the header.
    pub fn code(self) -> u32 {
        match self {
            Refused::Calls => 101,
            Refused::Answers => 102,
            Refused::Capacity => 103,
            Refused::Rows => 104,
            Refused::Start => 105,
            Refused::Image => 106,
            Refused::Page => 107,
            Refused::Record(_) => 108,
            Refused::Incidence(_) => 109,
            Refused::Copies => 113,
            Refused::List => 114,
            Refused::NoFailure => 115,
            Refused::Other(code) => code,
        }
    }

    /// The offset of the first bad word in the start, or in what is to be a page, where the code names one.
    pub fn offset(self) -> Option<usize> {
        match self {
            Refused::Record(at) | Refused::Incidence(at) => Some(at),
            _ => None,
        }
    }

    fn of(code: u32, number: usize) -> Refused {
        match code {
            101 => Refused::Calls,
            102 => Refused::Answers,
            103 => Refused::Capacity,
            104 => Refused::Rows,
            105 => Refused::Start,
            106 => Refused::Image,
            107 => Refused::Page,
            108 => Refused::Record(number),
            109 => Refused::Incidence(number),
            113 => Refused::Copies,
            114 => Refused::List,
            115 => Refused::NoFailure,
            _ => Refused::Other(code),
        }
    }
}

impl core::error::Error for Refused {}

impl fmt::Display for Refused {
    fn fmt(&self, f: &mut fmt::Formatter<'_>) -> fmt::Result {
        let why = match self {
            Refused::Calls => "calls are not a multiple of five words, with several stores of six",
            Refused::Answers => "answers have under two words a call",
            Refused::Capacity => "a capacity, or the number of stores, is out of range",
            Refused::Rows => "the type rows are not 1 to 64 rows of bits below their number",
            Refused::Start => "the words have no sound header within the capacities",
            Refused::Image => "the image has too few words for the capacities",
            Refused::Page => "the page has under 25 bytes an edge",
            Refused::Record(_) => "a record is bad",
            Refused::Incidence(_) => "a list is bad",
            Refused::Copies => "the list has more changes than the copies have room for",
            Refused::List => "the list has over 20,000 calls, or more words than the list to write to",
            Refused::NoFailure => "the list is empty, or its last call is accepted",
            Refused::Other(_) => "unknown code",
        };
        write!(f, "refused, code {}: {why}", self.code())?;
        self.offset().map_or(Ok(()), |at| write!(f, " at word {at}"))
    }
}

/// Runs a list of calls from the first to the last.
///
/// `start` is the image to start from ([`EMPTY`] for no vertices), `rows` the type rows, `calls` five words a call. It
/// may be an old image, whose vertex records have three words; the image that is written has four.
/// A call that is refused answers its code and 0 and changes nothing, and the list goes on.
pub fn run<'a>(start: &[u32], rows: &[u64], calls: &[u32], lent: Lent<'a>) -> Result<Done<'a>, Refused> {
    let Lent { vertices, edges, journal, answers, image } = lent;
    // SAFETY: each pointer and length is that of a slice, so no pointer is null; the slices that are written are
    // borrowed mutably, so none overlaps another. The function keeps no pointer.
    let result = unsafe {
        futtockfig_run(
            start.as_ptr(),
            start.len(),
            rows.as_ptr(),
            rows.len(),
            calls.as_ptr(),
            calls.len(),
            vertices.as_mut_ptr(),
            vertices.len(),
            edges.as_mut_ptr(),
            edges.len(),
            journal.as_mut_ptr(),
            journal.len(),
            answers.as_mut_ptr(),
            answers.len(),
            image.as_mut_ptr(),
            image.len(),
        )
    };
    match result.code {
        0 => Ok(Done { answers: &answers[..2 * result.done], image: &image[..result.words] }),
        code => Err(Refused::of(code, result.done)),
    }
}

/// The answers one by one: the number of an accepted call, or the [`code`] of a refused one.
pub fn answers(words: &[u32]) -> impl Iterator<Item = Result<u32, u32>> + '_ {
    words.chunks_exact(2).map(|answer| match answer[0] {
        0 => Ok(answer[1]),
        code => Err(code),
    })
}

/// A part of an image.
#[derive(Clone, Copy, Debug, PartialEq, Eq)]
pub enum Part {
    /// Four words a vertex: number, type, value, degree, which is the length of its list; in an old image three, without
    /// the degree.
    Vertices = 1,
    /// Six words an edge: number, alpha, omega, type, reading kind, decimetres.
    Edges = 2,
    /// The lists, in the order of the vertices; a degree says how long each is.
    Lists = 3,
}

/// Where that part lies in the words of an image, new or old, also where it is empty; `None` where the header (length,
/// offsets, total) is not sound.
pub fn span(words: &[u32], which: Part) -> Option<Range<usize>> {
    // SAFETY: pointer and length are those of a slice.
    let span = unsafe { futtockfig_part(words.as_ptr(), words.len(), which as u32) };
    // The offset of a sound header is never 0.
    (span.offset != 0).then_some(span.offset..span.offset + span.len)
}

/// That part of the caller's own words; empty where the header is not sound.
pub fn part(words: &[u32], which: Part) -> &[u32] {
    &words[span(words, which).unwrap_or(0..0)]
}

/// The edges of an image on paper: one row of [`PAGE_ROW`] bytes each, in Eseq order, at the front of `page`.
///
/// The words may be an image, new or old, with up to 1,000 vertices, 4,000 edges and 64 types; all others are refused
/// with [`Refused::Start`], [`Refused::Record`] or [`Refused::Incidence`] before the length of `page` is looked at, as a
/// start is in a run with such capacities and types. The result is the rows; bytes behind them stay. Each ends with a
/// newline and nothing is added behind the last: a page is no C string.
///
/// ```
/// let words = [2, 1, 6, 14, 20, 22, 1, 0, 7, 1, 2, 0, 9, 1, 1, 1, 2, 0, 2, 450, 2, 3];
/// assert_eq!(futtockfig::page(&words, &mut [0; 25]), Ok(b"   1    1    2  0    450\n".as_slice()));
/// ```
pub fn page<'a>(words: &[u32], page: &'a mut [u8]) -> Result<&'a [u8], Refused> {
    // SAFETY: each pointer and length is that of a slice, and the page is borrowed mutably, so it overlaps no word.
    // The function keeps no pointer.
    let result = unsafe { futtockfig_page(words.as_ptr(), words.len(), page.as_mut_ptr(), page.len()) };
    match result.code {
        0 => Ok(&page[..result.bytes]),
        code => Err(Refused::of(code, result.bytes)),
    }
}

/// How far two images agree: numbers of edges.
#[derive(Clone, Copy, Debug, PartialEq, Eq)]
pub struct Comparison {
    /// In both, with the same number, alpha and omega.
    pub matched: u32,
    /// Of those matched, the ones whose readings agree.
    pub agreeing: u32,
    /// The first's other edges.
    pub only_first: u32,
    /// The second's other edges.
    pub only_second: u32,
}

/// Which of two images is none, and of the first why. No offset is told.
#[derive(Clone, Copy, Debug, PartialEq, Eq)]
#[non_exhaustive]
pub enum NoImage {
    /// 105: the first's header is not sound, a count is above the limits, or there are edges and no vertex.
    FirstHeader,
    /// 108: the first has a bad record.
    FirstRecord,
    /// 109: the first has a bad list.
    FirstList,
    /// 110: the first is an image and the second is none.
    Second,
    /// A code that the header does not name.
    Other(u32),
}

impl NoImage {
    /// The code of the header.
    pub fn code(self) -> u32 {
        match self {
            NoImage::FirstHeader => 105,
            NoImage::FirstRecord => 108,
            NoImage::FirstList => 109,
            NoImage::Second => 110,
            NoImage::Other(code) => code,
        }
    }

    fn of(code: u32) -> NoImage {
        match code {
            105 => NoImage::FirstHeader,
            108 => NoImage::FirstRecord,
            109 => NoImage::FirstList,
            110 => NoImage::Second,
            _ => NoImage::Other(code),
        }
    }
}

impl core::error::Error for NoImage {}

impl fmt::Display for NoImage {
    fn fmt(&self, f: &mut fmt::Formatter<'_>) -> fmt::Result {
        let why = match self {
            NoImage::FirstHeader => "the first has no sound header within the limits",
            NoImage::FirstRecord => "the first has a bad record",
            NoImage::FirstList => "the first has a bad list",
            NoImage::Second => "the second is no image",
            NoImage::Other(_) => "unknown code",
        };
        write!(f, "refused, code {}: {why}", self.code())
    }
}

/// Two images of one path beside each other. Edges match where number, alpha and omega agree; their readings agree where
/// both are heard and at most `tolerance` decimetres apart, or neither is heard and both are of one kind.
///
/// Each may be new or old and as large as for a [`page`].
///
/// ```
/// let one = [2, 1, 6, 14, 20, 22, 1, 0, 7, 1, 2, 0, 9, 1, 1, 1, 2, 0, 2, 450, 2, 3];
/// let mut two = one;
/// two[19] = 460;
/// let agreeing = |tolerance| futtockfig::compare(&one, &two, tolerance).unwrap().agreeing;
/// assert_eq!((agreeing(9), agreeing(10)), (0, 1));
/// assert_eq!(futtockfig::compare(&one, &[], 0), Err(futtockfig::NoImage::Second));
/// ```
pub fn compare(first: &[u32], second: &[u32], tolerance: u32) -> Result<Comparison, NoImage> {
    // SAFETY: each pointer and length is that of a slice, and nothing is written. The function keeps no pointer.
    let result = unsafe { futtockfig_compare(first.as_ptr(), first.len(), second.as_ptr(), second.len(), tolerance) };
    match result.code {
        0 => Ok(Comparison { matched: result.matched, agreeing: result.agreeing, only_first: result.only_first, only_second: result.only_second }),
        code => Err(NoImage::of(code)),
    }
}

/// Why there are no calls for a wanted order. Nothing was written, and which word of an image is bad is not told.
#[derive(Clone, Copy, Debug, PartialEq, Eq)]
#[non_exhaustive]
pub enum NotArranged {
    /// 105: the image has no sound header, too many vertices or edges, or edges and no vertex.
    Header,
    /// 108: a record of the image is bad.
    Record,
    /// 109: the records are good and a list of the image is bad.
    Incidence,
    /// 4: the vertex whose list is wanted in another order does not exist.
    Vertex,
    /// 111: the wanted words are not the items that are there, each once.
    Items,
    /// 112: too few words for the calls.
    Room,
    /// A code that the header does not name.
    Other(u32),
}

impl NotArranged {
    /// The code of the header.
    pub fn code(self) -> u32 {
        match self {
            NotArranged::Header => 105,
            NotArranged::Record => 108,
            NotArranged::Incidence => 109,
            NotArranged::Vertex => 4,
            NotArranged::Items => 111,
            NotArranged::Room => 112,
            NotArranged::Other(code) => code,
        }
    }

    fn of(code: u32) -> NotArranged {
        match code {
            105 => NotArranged::Header,
            108 => NotArranged::Record,
            109 => NotArranged::Incidence,
            4 => NotArranged::Vertex,
            111 => NotArranged::Items,
            112 => NotArranged::Room,
            _ => NotArranged::Other(code),
        }
    }
}

impl core::error::Error for NotArranged {}

impl fmt::Display for NotArranged {
    fn fmt(&self, f: &mut fmt::Formatter<'_>) -> fmt::Result {
        let why = match self {
            NotArranged::Header => "the words have no sound header within the limits",
            NotArranged::Record => "a record is bad",
            NotArranged::Incidence => "a list is bad",
            NotArranged::Vertex => "the vertex does not exist",
            NotArranged::Items => "the wanted words are not the items, each once",
            NotArranged::Room => "the list has under five words a call",
            NotArranged::Other(_) => "unknown code",
        };
        write!(f, "not arranged, code {}: {why}", self.code())
    }
}

/// The calls in front of a list, or why there are none.
fn arranged(result: raw::Arrangement, list: &[u32]) -> Result<&[u32], NotArranged> {
    match result.code {
        0 => Ok(&list[..5 * result.calls]),
        code => Err(NotArranged::of(code)),
    }
}

/// The calls that bring the vertices of an image into the order `wanted`, at the front of `list`: five words each, one for
/// each wanted vertex but the first.
///
/// The image is read as for a page. Run on the same graph, in a journal with as many free changes as there are calls, all
/// are accepted; then Vseq is the order wanted, and all else of the graph is as it was. A vertex that stands right already
/// has its call too, which alters nothing. Words of `list` behind the calls stay.
///
/// ```
/// let words = [2, 0, 6, 14, 14, 14, 1, 0, 7, 0, 2, 0, 9, 0];
/// assert_eq!(futtockfig::arrange_vertices(&words, &[2, 1], &mut [0; 5]), Ok([12, 1, 2, 0, 0].as_slice()));
/// ```
pub fn arrange_vertices<'a>(words: &[u32], wanted: &[u32], list: &'a mut [u32]) -> Result<&'a [u32], NotArranged> {
    // SAFETY: each pointer and length is that of a slice, and the list is borrowed mutably, so it overlaps no other.
    // The function keeps no pointer.
    let result = unsafe { futtockfig_arrange_vertices(words.as_ptr(), words.len(), wanted.as_ptr(), wanted.len(), list.as_mut_ptr(), list.len()) };
    arranged(result, list)
}

/// The same for the edges of an image and Eseq.
pub fn arrange_edges<'a>(words: &[u32], wanted: &[u32], list: &'a mut [u32]) -> Result<&'a [u32], NotArranged> {
    // SAFETY: as in arrange_vertices.
    let result = unsafe { futtockfig_arrange_edges(words.as_ptr(), words.len(), wanted.as_ptr(), wanted.len(), list.as_mut_ptr(), list.len()) };
    arranged(result, list)
}

/// The same for the list of a vertex: `wanted` has its oriented words.
pub fn arrange_words<'a>(words: &[u32], vertex: u32, wanted: &[u32], list: &'a mut [u32]) -> Result<&'a [u32], NotArranged> {
    // SAFETY: as in arrange_vertices.
    let result = unsafe { futtockfig_arrange_words(words.as_ptr(), words.len(), vertex, wanted.as_ptr(), wanted.len(), list.as_mut_ptr(), list.len()) };
    arranged(result, list)
}
