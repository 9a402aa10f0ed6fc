//! The kinds of call: the words a, b, c, d that each uses, and the number that it answers.
//!
//! A change (1 to 16) answers its cost, 0 where it alters nothing; of a question 0 answers that there is none.

/// `a` number, `b` type, `c` value; becomes last in Vseq.
pub const CREATE_VERTEX: u32 = 1;
/// `a` vertex; first the edges of its list, then the vertex, as one step.
pub const DELETE_VERTEX: u32 = 2;
/// `a` number, `b` alpha, `c` omega, `d` type; untested. It becomes last in Eseq, its out word last in the list of
/// alpha, then its in word last in the list of omega.
pub const CREATE_EDGE: u32 = 3;
/// `a` edge.
pub const DELETE_EDGE: u32 = 4;
/// `a` vertex, `b` type.
pub const RETYPE_VERTEX: u32 = 5;
/// `a` edge, `b` type.
pub const RETYPE_EDGE: u32 = 6;
/// `a` vertex, `b` value.
pub const SET_VALUE: u32 = 7;
/// `a` edge, `b` kind of [`reading`](crate::reading), `c` decimetres.
pub const SET_READING: u32 = 8;
/// `a` edge, `b` vertex; the out word becomes last in the list of `b`, also where it was there.
pub const SET_ALPHA: u32 = 9;
/// `a` edge, `b` vertex; the in word likewise.
pub const SET_OMEGA: u32 = 10;
/// `a`, `b` vertices; `a` is put directly before `b` in Vseq.
pub const VERTEX_BEFORE: u32 = 11;
/// `a`, `b` vertices; directly after.
pub const VERTEX_AFTER: u32 = 12;
/// `a`, `b` edges; `a` is put directly before `b` in Eseq.
pub const EDGE_BEFORE: u32 = 13;
/// `a`, `b` edges; directly after.
pub const EDGE_AFTER: u32 = 14;
/// `a`, `b` oriented words of one list; `a` is put directly before `b` there.
pub const WORD_BEFORE: u32 = 15;
/// `a`, `b` oriented words of one list; directly after.
pub const WORD_AFTER: u32 = 16;
/// `a` mark, 1 to 64; answers 0.
pub const SET_MARK: u32 = 17;
/// `a` mark; answers 0.
pub const DROP_MARK: u32 = 18;
/// One step back; answers 1.
pub const UNDO: u32 = 19;
/// One step on; answers 1.
pub const REDO: u32 = 20;
/// `a` mark; answers the steps moved.
pub const GO_TO_MARK: u32 = 21;
/// Forgets all steps and marks and keeps the graph; answers the place before it.
pub const COMMIT: u32 = 22;
/// The first vertex of Vseq.
pub const FIRST_VERTEX: u32 = 30;
/// `a` vertex; the one behind it.
pub const NEXT_VERTEX: u32 = 31;
/// The first edge of Eseq.
pub const FIRST_EDGE: u32 = 32;
/// `a` edge; the one behind it.
pub const NEXT_EDGE: u32 = 33;
/// `a` vertex; the first oriented word of its list.
pub const FIRST_WORD: u32 = 34;
/// `a` oriented word; the one behind it in its list.
pub const NEXT_WORD: u32 = 35;
/// `a` edge; the vertex where it starts.
pub const ALPHA: u32 = 36;
/// `a` edge; the vertex where it ends.
pub const OMEGA: u32 = 37;
/// `a` oriented word; the vertex that it is seen from.
pub const THIS: u32 = 38;
/// `a` oriented word; the vertex at its other end.
pub const THAT: u32 = 39;
/// `a` vertex.
pub const VERTEX_TYPE: u32 = 40;
/// `a` edge.
pub const EDGE_TYPE: u32 = 41;
/// `a` vertex.
pub const VALUE: u32 = 42;
/// `a` edge; 0, 1 or 2 ([`reading`](crate::reading)).
pub const READING_KIND: u32 = 43;
/// `a` edge.
pub const DECIMETRES: u32 = 44;
/// `a` vertex, `b` class of edges, `c` [`side`](crate::side); how many words of its list. A loop counts twice where both
/// sides are asked.
pub const DEGREE: u32 = 45;
/// `a`, `b` vertices; 1 where `a` is somewhere before `b` in Vseq, else 0.
pub const VERTEX_IS_BEFORE: u32 = 46;
/// `a`, `b` edges; the same in Eseq.
pub const EDGE_IS_BEFORE: u32 = 47;
/// `a`, `b` oriented words of one list; the same there.
pub const WORD_IS_BEFORE: u32 = 48;
/// `a`, `b` marks; the distance of their places.
pub const STEPS_BETWEEN: u32 = 49;
/// How many marks stand.
pub const MARKS_STANDING: u32 = 50;
/// The journal's capacity less the costs of the steps up to the present place.
pub const FREE_CHANGES: u32 = 51;
/// `a`, `b` types; 1 where `a` is below `b`, else 0.
pub const IS_BELOW: u32 = 52;
/// `a`, `b` vertices; the smaller of both ways in decimetres. The way from `a` to `b` is what is heard on the last edge
/// that is tested and goes out to `b`, in the order of the list of `a`.
pub const RANGE: u32 = 53;
/// `a`, `b` vertices, `c` [`price_list`](crate::price_list); the grade of their range.
pub const GRADE: u32 = 54;
/// `a` standing mark, `b` and `c` its [`name`](crate::name()); one that it had is free then; answers 0.
pub const NAME_MARK: u32 = 56;
/// `a` and `b` a [`name`](crate::name()); goes to the mark that has it; answers the steps moved.
pub const GO_TO_NAME: u32 = 57;
/// `a` bench, 0 to 99, of the steps made from now on; 0 at first; answers 0.
pub const SET_BENCH: u32 = 58;
/// `a`, `b` marks, `c` bench; how many of the steps between them the bench made.
pub const STEPS_MADE_BY: u32 = 59;
