//! Limits, sizes of records, and the numbers that stand for readings, sides and price lists.

/// The most vertices that a table may have; the fewest of each is 1.
pub const MOST_VERTICES: usize = 1_000;
/// The most edges.
pub const MOST_EDGES: usize = 4_000;
/// The most changes that a journal remembers.
pub const MOST_CHANGES: usize = 20_000;
/// The most types.
pub const MOST_TYPES: usize = 64;
/// The highest mark; the lowest is 1.
pub const LAST_MARK: u32 = 64;
/// The highest bench; the lowest is 0.
pub const LAST_BENCH: u32 = 99;
/// The most decimetres of a reading.
pub const MOST_DECIMETRES: u32 = 9_999;

/// Words of an image's header.
pub const HEADER_WORDS: usize = 6;
/// Words of a vertex in an image.
pub const VERTEX_RECORD: usize = 4;
/// Words of a vertex in an old image.
pub const OLD_VERTEX_RECORD: usize = 3;
/// Words of an edge in an image.
pub const EDGE_RECORD: usize = 6;

/// Kinds of a reading.
pub mod reading {
    /// Not tested; decimetres are 0.
    pub const UNTESTED: u32 = 0;
    /// Tested, and nothing heard; decimetres are 0.
    pub const SILENT: u32 = 1;
    /// Heard at so many decimetres.
    pub const HEARD: u32 = 2;
}

/// Which words of a list [`kind::DEGREE`](crate::kind::DEGREE) counts.
pub mod side {
    /// All.
    pub const BOTH: u32 = 0;
    /// Out words.
    pub const OUT: u32 = 1;
    /// In words.
    pub const IN: u32 = 2;
}

/// The price lists of [`kind::GRADE`](crate::kind::GRADE); 0 is the old one too.
pub mod price_list {
    /// Limits 0, 250, 500, .. 9,750: grades 0 to 39.
    pub const OLD: u32 = 1;
    /// Limits 0, 200, 400, .. 9,800: grades 0 to 49.
    pub const NEW: u32 = 2;
}
