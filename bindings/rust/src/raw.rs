//! The archive's functions as `include/futtockfig.h` declares them, with the caller's duties that it names.
#![allow(missing_docs)]

#[repr(C)]
pub struct RunResult {
    pub code: u32,
    pub done: usize,
    pub words: usize,
}

#[repr(C)]
pub struct Span {
    pub offset: usize,
    pub len: usize,
}

#[repr(C)]
pub struct Reduction {
    pub code: u32,
    pub kept: usize,
    pub runs: usize,
}

#[repr(C)]
pub struct PageResult {
    pub code: u32,
    pub bytes: usize,
}

#[repr(C)]
pub struct Comparison {
    pub code: u32,
    pub matched: u32,
    pub agreeing: u32,
    pub only_first: u32,
    pub only_second: u32,
}

#[repr(C)]
pub struct Arrangement {
    pub code: u32,
    pub calls: usize,
}

extern "C" {
    pub fn futtockfig_version() -> u32;
    pub fn futtockfig_run(
        start: *const u32,
        start_len: usize,
        rows: *const u64,
        rows_len: usize,
        calls: *const u32,
        calls_len: usize,
        vertices: *mut u32,
        vertices_len: usize,
        edges: *mut u32,
        edges_len: usize,
        journal: *mut u32,
        journal_len: usize,
        answers: *mut u32,
        answers_len: usize,
        image: *mut u32,
        image_len: usize,
    ) -> RunResult;
    pub fn futtockfig_record(
        start: *const u32,
        start_len: usize,
        rows: *const u64,
        rows_len: usize,
        calls: *const u32,
        calls_len: usize,
        vertices: *mut u32,
        vertices_len: usize,
        edges: *mut u32,
        edges_len: usize,
        journal: *mut u32,
        journal_len: usize,
        answers: *mut u32,
        answers_len: usize,
        image: *mut u32,
        image_len: usize,
        copies: *mut u32,
        copies_len: usize,
    ) -> RunResult;
    pub fn futtockfig_reduce(
        start: *const u32,
        start_len: usize,
        rows: *const u64,
        rows_len: usize,
        calls: *const u32,
        calls_len: usize,
        vertices: *mut u32,
        vertices_len: usize,
        edges: *mut u32,
        edges_len: usize,
        journal: *mut u32,
        journal_len: usize,
        answers: *mut u32,
        answers_len: usize,
        image: *const u32,
        image_len: usize,
        list: *mut u32,
        list_len: usize,
    ) -> Reduction;
    pub fn futtockfig_run_stores(
        start: *const u32,
        start_len: usize,
        rows: *const u64,
        rows_len: usize,
        calls: *const u32,
        calls_len: usize,
        vertices: *mut u32,
        vertices_len: usize,
        edges: *mut u32,
        edges_len: usize,
        journal: *mut u32,
        journal_len: usize,
        answers: *mut u32,
        answers_len: usize,
        image: *mut u32,
        image_len: usize,
        stores: u32,
        limit: u32,
    ) -> RunResult;
    pub fn futtockfig_part(words: *const u32, words_len: usize, part: u32) -> Span;
    pub fn futtockfig_page(words: *const u32, words_len: usize, page: *mut u8, page_len: usize) -> PageResult;
    pub fn futtockfig_compare(first: *const u32, first_len: usize, second: *const u32, second_len: usize, tolerance: u32) -> Comparison;
    pub fn futtockfig_arrange_vertices(
        words: *const u32,
        words_len: usize,
        wanted: *const u32,
        wanted_len: usize,
        list: *mut u32,
        list_len: usize,
    ) -> Arrangement;
    pub fn futtockfig_arrange_edges(words: *const u32, words_len: usize, wanted: *const u32, wanted_len: usize, list: *mut u32, list_len: usize)
        -> Arrangement;
    pub fn futtockfig_arrange_words(
        words: *const u32,
        words_len: usize,
        vertex: u32,
        wanted: *const u32,
        wanted_len: usize,
        list: *mut u32,
        list_len: usize,
    ) -> Arrangement;
}
