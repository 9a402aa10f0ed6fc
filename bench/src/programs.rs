//! The programs that are timed, as C functions, and the slices that they are lent.

use crate::check;
use outside::gen::Random;
use outside::run::{Case, Outcome};
use outside::stores::{Ended, Several};
use std::time::Duration;

/// The C by hand by gcc and by the kit's clang.
pub const BY_HAND: [Run; 2] = [by_hand_run, by_hand_kit_run];
pub const BY_HAND_STORES: [RunStores; 2] = [by_hand_run_stores, by_hand_kit_run_stores];

#[repr(C)]
#[derive(Clone, Copy, PartialEq, Debug)]
pub struct RunResult {
    pub code: u32,
    pub done: usize,
    pub words: usize,
}

#[rustfmt::skip]
pub type Run = unsafe extern "C" fn(
    *const u32, usize, *const u64, usize, *const u32, usize,
    *mut u32, usize, *mut u32, usize, *mut u32, usize, *mut u32, usize, *mut u32, usize,
) -> RunResult;

#[rustfmt::skip]
pub type RunStores = unsafe extern "C" fn(
    *const u32, usize, *const u64, usize, *const u32, usize,
    *mut u32, usize, *mut u32, usize, *mut u32, usize, *mut u32, usize, *mut u32, usize, u32, u32,
) -> RunResult;

#[rustfmt::skip]
extern "C" {
    pub fn futtockfig_run_stores(
        start: *const u32, start_len: usize, rows: *const u64, rows_len: usize, calls: *const u32, calls_len: usize,
        vertices: *mut u32, vertices_len: usize, edges: *mut u32, edges_len: usize, journal: *mut u32, journal_len: usize,
        answers: *mut u32, answers_len: usize, image: *mut u32, image_len: usize, stores: u32, limit: u32,
    ) -> RunResult;
    pub fn by_hand_run_stores(
        start: *const u32, start_len: usize, rows: *const u64, rows_len: usize, calls: *const u32, calls_len: usize,
        vertices: *mut u32, vertices_len: usize, edges: *mut u32, edges_len: usize, journal: *mut u32, journal_len: usize,
        answers: *mut u32, answers_len: usize, image: *mut u32, image_len: usize, stores: u32, limit: u32,
    ) -> RunResult;
    pub fn by_hand_kit_run_stores(
        start: *const u32, start_len: usize, rows: *const u64, rows_len: usize, calls: *const u32, calls_len: usize,
        vertices: *mut u32, vertices_len: usize, edges: *mut u32, edges_len: usize, journal: *mut u32, journal_len: usize,
        answers: *mut u32, answers_len: usize, image: *mut u32, image_len: usize, stores: u32, limit: u32,
    ) -> RunResult;
}

#[rustfmt::skip]
extern "C" {
    pub fn futtockfig_run(
        start: *const u32, start_len: usize, rows: *const u64, rows_len: usize, calls: *const u32, calls_len: usize,
        vertices: *mut u32, vertices_len: usize, edges: *mut u32, edges_len: usize, journal: *mut u32, journal_len: usize,
        answers: *mut u32, answers_len: usize, image: *mut u32, image_len: usize,
    ) -> RunResult;
    pub fn by_hand_run(
        start: *const u32, start_len: usize, rows: *const u64, rows_len: usize, calls: *const u32, calls_len: usize,
        vertices: *mut u32, vertices_len: usize, edges: *mut u32, edges_len: usize, journal: *mut u32, journal_len: usize,
        answers: *mut u32, answers_len: usize, image: *mut u32, image_len: usize,
    ) -> RunResult;
    pub fn by_hand_kit_run(
        start: *const u32, start_len: usize, rows: *const u64, rows_len: usize, calls: *const u32, calls_len: usize,
        vertices: *mut u32, vertices_len: usize, edges: *mut u32, edges_len: usize, journal: *mut u32, journal_len: usize,
        answers: *mut u32, answers_len: usize, image: *mut u32, image_len: usize,
    ) -> RunResult;
}

/// A code and four counts.
#[repr(C)]
pub struct Compared(pub [u32; 5]);

extern "C" {
    pub fn futtockfig_compare(first: *const u32, first_len: usize, second: *const u32, second_len: usize, tolerance: u32) -> Compared;
}

#[repr(C)]
struct TimeSpec {
    seconds: i64,
    nanoseconds: i64,
}

extern "C" {
    fn clock_gettime(clock: i32, time: *mut TimeSpec) -> i32;
}

/// The processor time of this thread, which other programs on the machine do not count in.
pub fn now() -> Duration {
    const CLOCK_THREAD_CPUTIME_ID: i32 = 3;
    let mut time = TimeSpec { seconds: 0, nanoseconds: 0 };
    // SAFETY: the pointer is to a live struct of the C library's layout on 64-bit Linux.
    unsafe { clock_gettime(CLOCK_THREAD_CPUTIME_ID, &mut time) };
    Duration::new(time.seconds as u64, time.nanoseconds as u32)
}

/// The slices that both programs are lent in turn.
pub struct Buffers {
    vertices: Vec<u32>,
    edges: Vec<u32>,
    journal: Vec<u32>,
    answers: Vec<u32>,
    image: Vec<u32>,
}

impl Buffers {
    pub fn new(case: &Case) -> Buffers {
        let mut r = Random::new(9);
        Buffers {
            vertices: r.junk(case.vertices),
            edges: r.junk(case.edges),
            journal: r.junk(case.journal),
            answers: r.junk(case.answers),
            image: r.junk(case.image),
        }
    }

    pub fn run(&mut self, program: Run, case: &Case) -> (RunResult, Duration) {
        let begun = now();
        // SAFETY: each pointer is to its own slice of the given length.
        let result = unsafe {
            program(
                case.start.as_ptr(),
                case.start.len(),
                case.rows.as_ptr(),
                case.rows.len(),
                case.calls.as_ptr(),
                case.calls.len(),
                self.vertices.as_mut_ptr(),
                self.vertices.len(),
                self.edges.as_mut_ptr(),
                self.edges.len(),
                self.journal.as_mut_ptr(),
                self.journal.len(),
                self.answers.as_mut_ptr(),
                self.answers.len(),
                self.image.as_mut_ptr(),
                self.image.len(),
            )
        };
        (result, now() - begun)
    }

    pub fn serve(&mut self, program: RunStores, several: &Several) -> (RunResult, Duration) {
        let case = &several.case;
        let begun = now();
        // SAFETY: each pointer is to its own slice of the given length.
        let result = unsafe {
            program(
                case.start.as_ptr(),
                case.start.len(),
                case.rows.as_ptr(),
                case.rows.len(),
                case.calls.as_ptr(),
                case.calls.len(),
                self.vertices.as_mut_ptr(),
                self.vertices.len(),
                self.edges.as_mut_ptr(),
                self.edges.len(),
                self.journal.as_mut_ptr(),
                self.journal.len(),
                self.answers.as_mut_ptr(),
                self.answers.len(),
                self.image.as_mut_ptr(),
                self.image.len(),
                several.stores,
                several.limit,
            )
        };
        (result, now() - begun)
    }

    pub fn ended(&mut self, program: RunStores, several: &Several) -> Ended {
        let (result, _) = self.serve(program, several);
        if result.code != 0 {
            return Ended::Refused(result.code, result.done);
        }
        let part = self.image.len() / several.stores as usize;
        let images: Vec<Vec<u32>> = self.image.chunks_exact(part).take(several.stores as usize).map(|part| part[..part[5] as usize].to_vec()).collect();
        check("the images of several stores have other words than are told", images.iter().map(Vec::len).sum::<usize>() == result.words);
        Ended::Done { answers: self.answers[..2 * result.done].to_vec(), images }
    }

    pub fn outcome(&mut self, program: Run, case: &Case) -> Outcome {
        let (result, _) = self.run(program, case);
        match result.code {
            0 => Outcome::Done { answers: self.answers[..2 * result.done].to_vec(), image: self.image[..result.words].to_vec() },
            code => Outcome::Refused(code, result.done),
        }
    }
}
