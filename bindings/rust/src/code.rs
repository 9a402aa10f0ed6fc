//! The codes by name: of a call, as [`answers`](crate::answers) gives them, and from 101 on of a whole list or image.

/// The call is accepted, the list is run.
pub const OK: u32 = 0;
/// The kind is none of [`kind`](crate::kind).
pub const NO_SUCH_KIND: u32 = 1;
/// Kinds 1 and 3: the new number is 0 or above its capacity.
pub const BAD_NUMBER: u32 = 2;
/// Kinds 1 and 3: the new number is taken.
pub const NUMBER_IN_USE: u32 = 3;
/// A vertex that is named is missing. Of an order too: the vertex whose list is wanted.
pub const NO_SUCH_VERTEX: u32 = 4;
/// An edge that is named is missing; an oriented word names its edge.
pub const NO_SUCH_EDGE: u32 = 5;
/// A type or class that is named has no row.
pub const NO_SUCH_TYPE: u32 = 6;
/// Kind 8: `b` and `c` are no reading.
pub const NOT_A_READING: u32 = 7;
/// Kinds 15, 16 and 48: the words are seen from different vertices.
pub const OTHER_LIST: u32 = 8;
/// Kinds 11 to 16: `a` equals `b`.
pub const SAME_TWICE: u32 = 9;
/// A change that would alter the graph costs more than the free changes.
pub const NO_ROOM: u32 = 10;
/// A mark that is named is not 1 to 64.
pub const BAD_MARK: u32 = 11;
/// Kind 17: the mark stands.
pub const MARK_STANDS: u32 = 12;
/// Kinds 18, 21, 49, 56 and 59: a mark that is named does not stand.
pub const NO_SUCH_MARK: u32 = 13;
/// Kinds 19 and 20: there is nothing to undo or redo.
pub const NO_STEP: u32 = 14;
/// Kind 45: `c` is above 2.
pub const BAD_SIDE: u32 = 15;
/// Kinds 53 and 54: a way's last tested edge is silent, or it has none.
pub const NOTHING_HEARD: u32 = 16;
/// Kind 54: `c` is above 2.
pub const BAD_PRICE_LIST: u32 = 17;
/// Kind 56: both words of the name are 0, or another standing mark has it.
pub const BAD_NAME: u32 = 18;
/// Kind 57: no standing mark has the name.
pub const NO_SUCH_NAME: u32 = 19;
/// Kinds 58 and 59: a bench above 99.
pub const BAD_BENCH: u32 = 20;
/// With several stores: the number is 0 or above theirs.
pub const NO_SUCH_STORE: u32 = 21;
/// The calls' words are no multiple of five, with several stores of six.
pub const BAD_CALLS: u32 = 101;
/// Fewer than two words a call for the answers.
pub const SHORT_ANSWERS: u32 = 102;
/// A capacity, or the number of stores, is 0 or above its limit.
pub const BAD_CAPACITY: u32 = 103;
/// No type row, over 64, or a bit that names no type.
pub const BAD_ROWS: u32 = 104;
/// An image's header is not sound, a count is above its capacity, or there are edges and no vertex.
pub const BAD_START: u32 = 105;
/// Too few words for the end image.
pub const SHORT_IMAGE: u32 = 106;
/// A vertex or edge record of an image is bad, its degree included.
pub const BAD_RECORD: u32 = 108;
/// All records of an image are good, and a list is bad.
pub const BAD_INCIDENCE: u32 = 109;
/// Under 25 bytes an edge for a page.
pub const SHORT_PAGE: u32 = 107;
/// Of two images that are compared the second is none, and the first is one.
pub const BAD_SECOND: u32 = 110;
/// The words wanted of an order are not the items that are there, each once.
pub const OTHER_ITEMS: u32 = 111;
/// Too few words for the calls of an order.
pub const SHORT_LIST: u32 = 112;
/// More calls of kinds 1 to 16 than there is room for copies.
pub const SHORT_COPIES: u32 = 113;
/// A list to be reduced has over 20,000 calls, or more words than the list to write to.
pub const BAD_LIST: u32 = 114;
/// A list to be reduced has no call, or its last call is accepted.
pub const NO_FAILURE: u32 = 115;

/// What a code means, in the words of `include/futtockfig_text.h`.
///
/// ```
/// use futtockfig::code;
/// assert_eq!(code::text(code::NO_SUCH_NAME), "no standing mark has that name");
/// ```
pub fn text(code: u32) -> &'static str {
    match code {
        OK => "done",
        NO_SUCH_KIND => "there is no such kind of call",
        BAD_NUMBER => "a new number is 0 or above the capacity",
        NUMBER_IN_USE => "that number is in use",
        NO_SUCH_VERTEX => "there is no such vertex",
        NO_SUCH_EDGE => "there is no such edge",
        NO_SUCH_TYPE => "there is no such type or class",
        NOT_A_READING => "kind and decimetres are no reading",
        OTHER_LIST => "the two words are in the lists of different vertices",
        SAME_TWICE => "both are the same",
        NO_ROOM => "too few free changes are left",
        BAD_MARK => "a mark is a number from 1 to 64",
        MARK_STANDS => "the mark stands already",
        NO_SUCH_MARK => "the mark does not stand",
        NO_STEP => "there is nothing to undo or redo",
        BAD_SIDE => "a side is 0, 1 or 2",
        NOTHING_HEARD => "nothing heard on one of the ways, or on both",
        BAD_PRICE_LIST => "a price list is 0, 1 or 2",
        BAD_NAME => "the name is empty, or another standing mark has it",
        NO_SUCH_NAME => "no standing mark has that name",
        BAD_BENCH => "a bench is a number from 0 to 99",
        NO_SUCH_STORE => "there is no such store",
        BAD_CALLS => "the calls are no multiple of five words, with several stores of six",
        SHORT_ANSWERS => "the answers have under two words a call",
        BAD_CAPACITY => "a capacity, or the number of stores, is 0 or above its limit",
        BAD_ROWS => "the type rows are not 1 to 64, or name a type that has no row",
        BAD_START => "the header of the image is not sound, or it has more than there is room for",
        SHORT_IMAGE => "the end image has too few words for the capacities",
        BAD_RECORD => "a record of the image is bad",
        BAD_INCIDENCE => "a list of the image is bad",
        SHORT_PAGE => "the page has under 25 bytes an edge",
        BAD_SECOND => "the second image is bad",
        OTHER_ITEMS => "the wanted words are not the items that are there, each once",
        SHORT_LIST => "the list has too few words for the calls of the order",
        SHORT_COPIES => "there are more changes than room for copies",
        BAD_LIST => "there are over 20,000 calls, or more words than the list to write to has",
        NO_FAILURE => "there is no call, or the last one is accepted",
        _ => "no code of this version",
    }
}
