//! What random cases reached, so that what they never reach is seen.

use outside::image;
use outside::machine::{is_change, is_kind};
use outside::recording::Recorded;
use outside::reduction::Reduced;
use outside::run::{Case, Outcome};
use outside::stores::{Ended, Several};
use std::collections::BTreeMap;

/// What lists of several stores are lent, accepted and refused ones.
const LENT: [&str; 8] = [
    "eight stores",
    "no length a multiple of their number",
    "a limit of 0",
    "the largest limit",
    "no store",
    "nine stores",
    "the largest number of stores",
    "words left over behind the bad record of one store",
];

/// What the generated calls reached.
#[derive(Default)]
pub struct Reached {
    lists: u64,
    calls: u64,
    accepted: u64,
    pub longest: usize,
    /// Points at which the steps of all benches between two marks were added up.
    pub points: usize,
    kinds: BTreeMap<u32, u64>,
    codes: BTreeMap<u32, u64>,
    /// Accepted changes that altered nothing, by kind.
    idle: BTreeMap<u32, u64>,
    /// Codes of pages, 0 among them.
    pages: BTreeMap<u32, u64>,
    /// Codes of comparisons, 0 among them.
    comparisons: BTreeMap<u32, u64>,
    /// Codes of orders by the kind of their calls, 0 among them.
    orders: BTreeMap<(u32, u32), u64>,
    /// Codes of recorded lists, 0 among them, and the copies made.
    recordings: BTreeMap<u32, u64>,
    copies: usize,
    /// Codes of lists that were reduced, 0 among them; the calls sent and kept, and the lists run.
    reductions: BTreeMap<u32, u64>,
    shrunk: (usize, usize, usize),
    /// Of several stores: the codes of lists, 0 among them, and of calls; the kinds refused for want of room to redo; and what
    /// was lent.
    several: BTreeMap<u32, u64>,
    too_far: BTreeMap<u32, u64>,
    lent: BTreeMap<&'static str, u64>,
    /// What came of starts with vertices, by the size of their records and the code; a wrong degree by its own.
    starts: BTreeMap<(usize, &'static str), u64>,
}

impl Reached {
    pub fn add(&mut self, case: &Case, outcome: &Outcome) {
        self.lists += 1;
        if let Some(record) = image::record_size(&case.start).filter(|_| case.start[0] > 0) {
            let came = match outcome {
                Outcome::Done { .. } => "loaded",
                Outcome::Refused(106, _) => "106",
                Outcome::Refused(108, at) if image::is_degree(&case.start, *at) => "a degree",
                Outcome::Refused(108, _) => "108",
                Outcome::Refused(109, _) => "109",
                Outcome::Refused(..) => "another code",
            };
            *self.starts.entry((record, came)).or_default() += 1;
        }
        match outcome {
            Outcome::Refused(code, _) => *self.codes.entry(*code).or_default() += 1,
            Outcome::Done { answers, .. } => {
                for (call, answer) in case.calls.chunks(5).zip(answers.chunks(2)) {
                    self.calls += 1;
                    if answer[0] == 0 {
                        self.accepted += 1;
                        *self.kinds.entry(call[0]).or_default() += 1;
                        if is_change(call[0]) && answer[1] == 0 {
                            *self.idle.entry(call[0]).or_default() += 1;
                        }
                    } else {
                        *self.codes.entry(answer[0]).or_default() += 1;
                    }
                }
            }
        }
    }

    pub fn page(&mut self, code: u32) {
        *self.pages.entry(code).or_default() += 1;
    }

    pub fn comparison(&mut self, code: u32) {
        *self.comparisons.entry(code).or_default() += 1;
    }

    pub fn order(&mut self, kind: u32, code: u32) {
        *self.orders.entry((kind, code)).or_default() += 1;
    }

    pub fn recording(&mut self, recorded: &Recorded) {
        let code = match recorded {
            Recorded::Refused(code, _) => *code,
            Recorded::Done { copies, .. } => {
                self.copies += copies.len();
                0
            }
        };
        *self.recordings.entry(code).or_default() += 1;
    }

    pub fn reduction(&mut self, case: &Case, reduced: &Reduced) {
        let code = match reduced {
            Reduced::Refused(code, _) => *code,
            Reduced::Done { calls, runs } => {
                self.shrunk.0 += case.calls.len() / 5;
                self.shrunk.1 += calls.len() / 5;
                self.shrunk.2 += runs;
                0
            }
        };
        *self.reductions.entry(code).or_default() += 1;
    }

    pub fn reductions(&self) -> String {
        let lists: u64 = self.reductions.values().sum();
        format!("{lists} lists reduced, {} calls to {} by {} runs", self.shrunk.0, self.shrunk.1, self.shrunk.2)
    }

    pub fn several(&mut self, several: &Several, ended: &Ended) {
        let case = &several.case;
        let code = match ended {
            Ended::Refused(code, _) => *code,
            Ended::Done { answers, images } => {
                for (call, answer) in case.calls.chunks(6).zip(answers.chunks(2)).filter(|pair| pair.1[0] != 0) {
                    if answer[0] == 10 && !is_change(call[1]) {
                        *self.too_far.entry(call[1]).or_default() += 1;
                    } else {
                        *self.several.entry(answer[0]).or_default() += 1;
                    }
                }
                let k = images.len();
                let rest = [case.vertices, case.edges, case.journal, case.image].iter().all(|len| len % k != 0);
                let found = [(LENT[0], k == 8), (LENT[1], rest), (LENT[2], several.limit == 0), (LENT[3], several.limit == u32::MAX)];
                for (what, _) in found.iter().filter(|found| found.1) {
                    *self.lent.entry(what).or_default() += 1;
                }
                0
            }
        };
        *self.several.entry(code).or_default() += 1;
        let found = [
            (LENT[4], code == 103 && several.stores == 0),
            (LENT[5], code == 103 && several.stores == 9),
            (LENT[6], code == 103 && several.stores == u32::MAX),
            (LENT[7], code == 108 && several.stores == 1 && Several::left_over(case)),
        ];
        for (what, _) in found.iter().filter(|found| found.1) {
            *self.lent.entry(what).or_default() += 1;
        }
    }

    /// Kinds never accepted, changes that never altered nothing, and codes never given.
    pub fn missing(&self) -> Vec<String> {
        let kinds = (0..100).filter(|k| is_kind(*k) && !self.kinds.contains_key(k)).map(|k| format!("kind {k}"));
        let codes = (1..=20).chain(101..=106).chain(108..=109).filter(|c| !self.codes.contains_key(c)).map(|c| format!("code {c}"));
        let idle = (5..=16).filter(|k| !self.idle.contains_key(k)).map(|k| format!("kind {k} that alters nothing"));
        let pages = [0, 105, 107, 108, 109].into_iter().filter(|c| !self.pages.contains_key(c)).map(|c| format!("page with code {c}"));
        let comparisons = [0, 105, 108, 109, 110].into_iter().filter(|c| !self.comparisons.contains_key(c)).map(|c| format!("comparison with code {c}"));
        let new = ["loaded", "106", "108", "a degree", "109"].map(|came| (image::RECORD, came));
        let old = ["loaded", "106", "108", "109"].map(|came| (image::OLD_RECORD, came));
        let starts = new.into_iter().chain(old).filter(|s| !self.starts.contains_key(s)).map(|s| format!("start with records of {} words: {}", s.0, s.1));
        let orders = [0, 105, 108, 109, 111, 112].into_iter().flat_map(|code| [12, 14, 16].map(|kind| (kind, code))).chain([(16, 4)]);
        let orders = orders.filter(|o| !self.orders.contains_key(o)).map(|o| format!("order by calls of kind {} with code {}", o.0, o.1));
        let recordings = [0, 101, 113].into_iter().filter(|c| !self.recordings.contains_key(c)).map(|c| format!("recording with code {c}"));
        let reductions = [0, 101, 114, 115].into_iter().filter(|c| !self.reductions.contains_key(c)).map(|c| format!("reduction with code {c}"));
        let several = (0..=21).chain(101..=106).chain([108, 109]).filter(|c| !self.several.contains_key(c)).map(|c| format!("several stores with code {c}"));
        let too_far = [20, 21, 57].into_iter().filter(|k| !self.too_far.contains_key(k)).map(|k| format!("several stores, kind {k} with code 10"));
        let lent = LENT.into_iter().filter(|what| !self.lent.contains_key(what)).map(|what| format!("several stores: {what}"));
        kinds
            .chain(codes)
            .chain(idle)
            .chain(pages)
            .chain(comparisons)
            .chain(starts)
            .chain(orders)
            .chain(recordings)
            .chain(reductions)
            .chain(several)
            .chain(too_far)
            .chain(lent)
            .collect()
    }

    pub fn summary(&self) -> String {
        let refused: u64 = self.codes.range(101..).map(|c| c.1).sum();
        let pages: u64 = self.pages.values().sum();
        let points = self.points;
        let comparisons: u64 = self.comparisons.values().sum();
        let arrived = [12, 14, 16].map(|kind| self.orders.get(&(kind, 0)).copied().unwrap_or(0).to_string()).join(" + ");
        let served: u64 = self.several.get(&0).copied().unwrap_or(0);
        let several: u64 = self.several.iter().filter(|c| *c.0 > 100).map(|c| c.1).sum();
        let wrong: u64 = self.orders.iter().filter(|o| o.0 .1 != 0).map(|o| o.1).sum();
        let recorded: u64 = self.recordings.values().sum();
        let copies = self.copies;
        format!(
            "{} lists ({refused} refused), {} calls ({} accepted), {pages} pages, {comparisons} comparisons, {arrived} orders that arrive, {wrong} refused, {served} lists of several stores, {several} refused, {points} sums over benches, {recorded} recorded lists with {copies} copies",
            self.lists, self.calls, self.accepted
        )
    }
}
