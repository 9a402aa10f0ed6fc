//! Random cases from a seed: lists of calls, start images sound and damaged, lent lengths, texts, pages, pairs of images.

mod images;
mod orders;
mod pages;
mod pairs;
mod resumes;
mod several;
pub use images::words;
pub use orders::{right_order, wrong_order};
pub use pages::{image_text, page};
pub use pairs::pair;
pub use resumes::{resume_text, two_lists};
pub use several::several;

use crate::machine::{is_change, Call, Capacities, Edge, Graph, Machine, Name, Reading, Types, Vertex};
use crate::run::{image_room, Case};
use crate::text;
use images::{damage_image, saved};

/// A splitmix64 generator.
pub struct Random(u64);

impl Random {
    pub fn new(seed: u64) -> Random {
        Random(seed.wrapping_mul(0x9e37_79b9_7f4a_7c15) ^ 0x5bf0_3635)
    }

    pub fn word64(&mut self) -> u64 {
        self.0 = self.0.wrapping_add(0x9e37_79b9_7f4a_7c15);
        let mut z = self.0;
        z = (z ^ z >> 30).wrapping_mul(0xbf58_476d_1ce4_e5b9);
        z = (z ^ z >> 27).wrapping_mul(0x94d0_49bb_1331_11eb);
        z ^ z >> 31
    }

    pub fn word(&mut self) -> u32 {
        self.word64() as u32
    }

    /// 0 to n - 1.
    pub fn under(&mut self, n: usize) -> usize {
        (self.word64() % n as u64) as usize
    }

    /// From a to b, both included.
    pub fn between(&mut self, a: usize, b: usize) -> usize {
        a + self.under(b - a + 1)
    }

    /// True once in n times.
    pub fn once_in(&mut self, n: usize) -> bool {
        self.under(n) == 0
    }

    pub fn one_of<T: Copy>(&mut self, items: &[T]) -> T {
        items[self.under(items.len())]
    }

    fn shuffle<T>(&mut self, items: &mut [T]) {
        for i in (1..items.len()).rev() {
            items.swap(i, self.under(i + 1));
        }
    }

    pub fn junk(&mut self, len: usize) -> Vec<u32> {
        // Small words too: they look like numbers, types and links.
        let small = self.once_in(2);
        (0..len).map(|_| if small { self.word() % 16 } else { self.word() }).collect()
    }
}

/// How large a case is.
#[derive(Clone, Copy, PartialEq, Eq, Debug)]
pub enum Size {
    Small,
    Middle,
    /// A small graph with up to 20,000 changes.
    Long,
    /// A graph near the limits of 1,000 and 4,000.
    Full,
}

pub fn size_of(seed: u64) -> Size {
    match seed % 500 {
        460..=497 => Size::Middle,
        498 => Size::Long,
        499 => Size::Full,
        _ => Size::Small,
    }
}

/// The case of a seed.
pub fn case(seed: u64) -> Case {
    let mut r = Random::new(seed);
    let size = size_of(seed);
    let capacities = match size {
        Size::Small => Capacities { vertices: r.between(1, 9) as u32, edges: r.between(1, 14) as u32, changes: r.between(1, 120) as u32 },
        Size::Middle => Capacities { vertices: spread(&mut r, 1_000), edges: spread(&mut r, 4_000), changes: spread(&mut r, 20_000) },
        Size::Long => Capacities { vertices: r.between(4, 10) as u32, edges: r.between(8, 20) as u32, changes: r.between(15_000, 20_000) as u32 },
        Size::Full => Capacities { vertices: r.between(900, 1_000) as u32, edges: r.between(3_800, 4_000) as u32, changes: r.one_of(&[300, 20_000]) },
    };
    let rows = rows(&mut r);
    let types = rows.len() as u32;
    let most = match size {
        Size::Full => (capacities.vertices, capacities.edges),
        _ => (r.one_of(&[0, 5, 60]), r.one_of(&[0, 8, 150])),
    };
    let start = graph(&mut r, capacities, types, most, size == Size::Full);
    let count = match size {
        Size::Small => r.one_of(&[0, 1, 5, 40, 120, 250]),
        Size::Middle => r.between(200, 1_200),
        Size::Long => 80_000,
        Size::Full => 250,
    };
    let machine = Machine::new(capacities, Types { rows: rows.clone() }, start.clone());
    let calls = calls(&mut r, machine, count, size == Size::Long);
    let mut case = Case::new(capacities, &rows, &calls);
    case.start = saved(&mut r, &start);
    // Lengths that are no multiple of a row, and words beyond.
    case.vertices += r.under(8);
    case.edges += r.under(12);
    case.journal += r.under(12);
    case.answers += r.one_of(&[0, 0, 1, 7]);
    case.image += r.one_of(&[0, 0, 1, 50]);
    if size != Size::Long && r.once_in(4) {
        for _ in 0..r.one_of(&[1, 1, 1, 2, 3]) {
            damage(&mut r, &mut case);
        }
    }
    case
}

/// 1 to 64 type rows with bits below their count.
fn rows(r: &mut Random) -> Vec<u64> {
    let n = match r.under(6) {
        0 => 1,
        1 => 64,
        2 => r.between(1, 64),
        _ => r.between(2, 6),
    };
    let all = if n == 64 { u64::MAX } else { (1 << n) - 1 };
    let dense = r.once_in(8);
    (0..n)
        .map(|_| {
            let mut row = r.word64() & r.word64() & all;
            if !dense {
                // About one declaration a row.
                row = if r.once_in(3) { 0 } else { 1 << r.under(n) };
            }
            row
        })
        .collect()
}

/// Distinct numbers from 1 to limit, in random order.
fn numbers(r: &mut Random, count: usize, limit: u32) -> Vec<u32> {
    let mut all: Vec<u32> = (1..=limit).collect();
    r.shuffle(&mut all);
    all.truncate(count);
    all
}

/// 1 to the limit, small numbers as often as large ones.
fn spread(r: &mut Random, limit: u32) -> u32 {
    if r.once_in(8) {
        return limit;
    }
    let most = (1 << r.between(1, 15)).min(limit as usize);
    r.between(1, most) as u32
}

/// A graph whose orders are all shuffled, of at most or exactly `most` vertices and edges.
pub fn graph(r: &mut Random, capacities: Capacities, types: u32, most: (u32, u32), exactly: bool) -> Graph {
    let count = |r: &mut Random, limit: u32| if exactly { limit as usize } else { r.under(limit as usize + 1) };
    let some_vertices = count(r, capacities.vertices.min(most.0));
    let some_edges = if some_vertices == 0 { 0 } else { count(r, capacities.edges.min(most.1)) };
    let mut g = Graph::default();
    for number in numbers(r, some_vertices, capacities.vertices) {
        g.vertices.push(Vertex { number, ty: r.under(types as usize) as u32, value: r.word(), list: vec![] });
    }
    for number in numbers(r, some_edges, capacities.edges) {
        let alpha = r.under(some_vertices);
        let omega = if r.once_in(5) { alpha } else { r.under(some_vertices) };
        g.vertices[alpha].list.push(2 * number);
        g.vertices[omega].list.push(2 * number + 1);
        g.edges.push(Edge {
            number,
            alpha: g.vertices[alpha].number,
            omega: g.vertices[omega].number,
            ty: r.under(types as usize) as u32,
            reading: reading(r),
        });
    }
    for v in &mut g.vertices {
        r.shuffle(&mut v.list);
    }
    g
}

fn reading(r: &mut Random) -> Reading {
    match r.under(4) {
        0 => Reading::Untested,
        1 => Reading::Silent,
        _ => Reading::Heard(r.one_of(&[0, 249, 250, 9_999, 450, 4_321])),
    }
}

/// A list of calls made beside a machine, so that most are accepted.
fn calls(r: &mut Random, mut machine: Machine, count: usize, long: bool) -> Vec<Call> {
    let mut list = Vec::new();
    let commits = if long { 0 } else { r.one_of(&[0, 200, 2_000]) };
    // In such lists a change made before the last step, which cuts steps, is rare.
    let seldom_cut = if long { 2_000 } else { r.one_of(&[1, 20, 200]) };
    let moods: &[usize] = if long { &[0, 0, 0, 0, 0, 0, 0, 1, 2, 4] } else { &[0, 1, 2, 3, 4, 5] };
    let mut mood = r.one_of(moods);
    while list.len() < count {
        if r.once_in(40) {
            mood = r.one_of(moods);
        }
        let kind = kind(r, &machine, mood, commits);
        let mut call = call(r, &machine, kind);
        if is_change(kind) && machine.place < machine.steps.len() && !r.once_in(seldom_cut) {
            // Forward again, to the last mark or by a redo.
            call = match machine.marks.iter().max_by_key(|mark| mark.1) {
                Some((mark, place)) if *place > machine.place => match machine.names.get(mark) {
                    Some([one, two]) if r.once_in(2) => [57, *one, *two, 0, 0],
                    _ => [21, *mark, 0, 0, 0],
                },
                _ => [20, 0, 0, 0, 0],
            };
        } else if long && is_change(kind) && r.once_in(30) {
            // Marks near the end of a long history.
            let kind = if machine.marks.len() < 60 { 17 } else { 18 };
            call = self::call(r, &machine, kind);
        }
        machine.call(call);
        list.push(call);
    }
    list
}

fn kind(r: &mut Random, machine: &Machine, mood: usize, commits: usize) -> u32 {
    if commits > 0 && r.once_in(commits) {
        return 22;
    }
    if r.once_in(60) {
        return r.one_of(&[0, 23, 29, 55, 60, 61, 1_000, u32::MAX]);
    }
    // Benches take turns often.
    if r.once_in(20) {
        return 58;
    }
    let question = |r: &mut Random| r.one_of(&[30, 31, 32, 33, 34, 35, 36, 37, 38, 39, 40, 41, 42, 43, 44, 45, 45, 46, 47, 48, 48, 52, 53, 54, 54]);
    let history = |r: &mut Random| r.one_of(&[17, 17, 17, 17, 18, 19, 19, 19, 20, 20, 20, 21, 21, 49, 50, 51, 56, 56, 56, 57, 57, 59, 59]);
    let change = |r: &mut Random| {
        let g = machine.present();
        let half = |limit: u32| limit.min(100) as usize / 2;
        if g.vertices.is_empty() || (g.vertices.len() < half(machine.capacities.vertices) && r.once_in(3)) {
            return 1;
        }
        if g.edges.is_empty() || (g.edges.len() < half(machine.capacities.edges) && r.once_in(3)) {
            return 3;
        }
        r.one_of(&[1, 1, 2, 3, 3, 3, 4, 5, 6, 7, 8, 8, 8, 9, 10, 11, 12, 13, 14, 15, 15, 16, 16])
    };
    match mood {
        // Changes in a row, then mixed, then history and questions.
        0 | 1 => {
            if r.once_in(12) {
                history(r)
            } else {
                change(r)
            }
        }
        2 | 3 => match r.under(4) {
            0 => history(r),
            1 => question(r),
            _ => change(r),
        },
        4 => {
            if r.once_in(10) {
                change(r)
            } else {
                history(r)
            }
        }
        _ => question(r),
    }
}

/// The words of a call of this kind, mostly such as name what is there.
fn call(r: &mut Random, machine: &Machine, kind: u32) -> Call {
    let g = machine.present();
    let c = machine.capacities;
    let junk = |r: &mut Random| if r.once_in(2) { 0 } else { r.word() };
    let any = |r: &mut Random, limit: u32| match r.under(30) {
        0 => 0,
        1 => r.word(),
        2 => limit + 1,
        _ => r.between(1, limit as usize) as u32,
    };
    let wrong = r.once_in(15);
    let vertex = |r: &mut Random| if wrong || g.vertices.is_empty() { any(r, c.vertices) } else { g.vertices[r.under(g.vertices.len())].number };
    let edge = |r: &mut Random| if wrong || g.edges.is_empty() { any(r, c.edges) } else { g.edges[r.under(g.edges.len())].number };
    let word = |r: &mut Random| edge(r).wrapping_mul(2) + r.under(2) as u32;
    let ty = |r: &mut Random| if r.once_in(30) { r.one_of(&[machine.types.count(), 63, 64, u32::MAX]) } else { r.under(machine.types.count() as usize) as u32 };
    // A second word in the list of the first.
    let beside = |r: &mut Random, w: u32| match g.this(w).and_then(|v| g.vertex(v)) {
        Some(v) if !r.once_in(12) => v.list[r.under(v.list.len())],
        _ => word(r),
    };
    let mark = |r: &mut Random| {
        let standing: Vec<u32> = machine.marks.keys().copied().collect();
        match r.under(20) {
            0 => r.one_of(&[0, 65, u32::MAX]),
            1 => r.one_of(&[1, 32, 33, 64]),
            _ if kind != 17 && !standing.is_empty() => r.one_of(&standing),
            _ => r.between(1, 64) as u32,
        }
    };
    // The name of a standing mark, or one of few, also with a word 0 or with two.
    let name = |r: &mut Random| -> Name {
        let held: Vec<Name> = machine.names.values().copied().collect();
        match r.under(12) {
            0 => [0, 0],
            1 => [r.word(), r.word()],
            2..=5 if !held.is_empty() => r.one_of(&held),
            _ => [r.one_of(&[0, 1, 7, u32::MAX]), r.one_of(&[0, 0, 1, 7])],
        }
    };
    // One of few, and what is none.
    let bench = |r: &mut Random| if r.once_in(10) { r.one_of(&[100, 101, 1_000, u32::MAX]) } else { r.one_of(&[0, 0, 1, 2, 3, 99]) };
    let fresh = |r: &mut Random, limit: u32, used: &dyn Fn(u32) -> bool| {
        if r.once_in(12) {
            return any(r, limit);
        }
        let from = r.under(limit as usize) as u32;
        (0..limit).map(|i| (from + i) % limit + 1).find(|n| !used(*n)).unwrap_or(from + 1)
    };
    let d = junk(r);
    match kind {
        1 => [1, fresh(r, c.vertices, &|n| g.vertex(n).is_some()), ty(r), r.word(), d],
        3 => {
            let alpha = vertex(r);
            let omega = if r.once_in(4) { alpha } else { vertex(r) };
            [3, fresh(r, c.edges, &|n| g.edge(n).is_some()), alpha, omega, ty(r)]
        }
        2 | 31 | 34 | 40 | 42 => [kind, vertex(r), junk(r), junk(r), d],
        4 | 33 | 36 | 37 | 41 | 43 | 44 => [kind, edge(r), junk(r), junk(r), d],
        5 => [5, vertex(r), ty(r), junk(r), d],
        6 => [6, edge(r), ty(r), junk(r), d],
        7 => {
            // Now and then the value that it has.
            let a = vertex(r);
            let same = g.vertices.iter().find(|v| v.number == a && r.once_in(8));
            [7, a, same.map_or_else(|| r.word(), |v| v.value), junk(r), d]
        }
        8 => {
            let found = reading(r);
            let mut words = [8, edge(r), found.kind(), found.decimetres(), d];
            if r.once_in(12) {
                words[2] = r.one_of(&[0, 1, 2, 3, u32::MAX]);
                words[3] = r.one_of(&[0, 1, 9_999, 10_000, u32::MAX]);
            }
            words
        }
        9 | 10 => {
            let e = edge(r);
            // The vertex that it has already, now and then.
            let v = match g.edge(e) {
                Some(found) if r.once_in(4) => {
                    if kind == 9 {
                        found.alpha
                    } else {
                        found.omega
                    }
                }
                _ => vertex(r),
            };
            [kind, e, v, junk(r), d]
        }
        11 | 12 | 46 | 53 | 54 => {
            // The price list of a grade.
            let c = if kind == 54 && !r.once_in(12) { r.under(4) as u32 } else { junk(r) };
            let a = vertex(r);
            let mut b = if r.once_in(8) { a } else { vertex(r) };
            // A pair that has an edge.
            if matches!(kind, 53 | 54) && !g.edges.is_empty() && r.once_in(2) {
                let e = &g.edges[r.under(g.edges.len())];
                return [kind, e.alpha, e.omega, c, d];
            }
            if matches!(kind, 53 | 54) && r.once_in(4) {
                b = a;
            }
            [kind, a, b, c, d]
        }
        13 | 14 | 47 => {
            let a = edge(r);
            [kind, a, if r.once_in(8) { a } else { edge(r) }, junk(r), d]
        }
        15 | 16 | 48 => {
            let a = word(r);
            [kind, a, beside(r, a), junk(r), d]
        }
        35 | 38 | 39 => [kind, word(r), junk(r), junk(r), d],
        45 => [45, vertex(r), ty(r), if r.once_in(12) { r.one_of(&[3, 4, u32::MAX]) } else { r.under(3) as u32 }, d],
        17 | 18 | 21 => [kind, mark(r), junk(r), junk(r), d],
        49 => [49, mark(r), mark(r), junk(r), d],
        52 => [52, ty(r), ty(r), junk(r), d],
        56 => {
            let a = mark(r);
            // Now and then the name that it has.
            let own = machine.names.get(&a).filter(|_| r.once_in(5)).copied();
            let [b, c] = own.unwrap_or_else(|| name(r));
            [56, a, b, c, d]
        }
        57 => {
            let [a, b] = name(r);
            [57, a, b, junk(r), d]
        }
        58 => [58, bench(r), junk(r), junk(r), d],
        59 => [59, mark(r), mark(r), bench(r), d],
        _ => [kind, junk(r), junk(r), junk(r), d],
    }
}

/// One thing that may make the list refused, or may not.
fn damage(r: &mut Random, case: &mut Case) {
    match r.under(12) {
        0 => {
            let more = r.between(1, 4);
            case.calls.extend(r.junk(more));
        }
        1 => case.calls.truncate(case.calls.len().saturating_sub(r.between(1, 4))),
        2 => case.answers = case.answers.saturating_sub(r.between(1, 9)),
        3 => match r.under(3) {
            0 => case.vertices = r.one_of(&[0, 1, 7, 8, 8_007, 8_008, 9_000]),
            1 => case.edges = r.one_of(&[0, 1, 11, 12, 48_011, 48_012, 50_000]),
            _ => case.journal = r.one_of(&[0, 1, 11, 12, 240_011, 240_012, 250_000]),
        },
        4 => match r.under(4) {
            0 => case.rows.clear(),
            1 => case.rows.resize(r.one_of(&[64, 65, 70]), 0),
            2 => {
                let n = case.rows.len();
                if n < 64 {
                    let at = r.under(n.max(1)).min(n.saturating_sub(1));
                    if let Some(row) = case.rows.get_mut(at) {
                        *row |= 1 << r.between(n, 63);
                    }
                }
            }
            _ => {
                case.rows.pop();
            }
        },
        5 => {
            // By some words, or by the degrees.
            let c = case.capacities();
            let short = if r.once_in(3) { c.vertices as usize } else { r.between(1, 60) };
            case.image = image_room(c).saturating_sub(short);
        }
        6 => case.image = r.one_of(&[0, 1, 5, 6]),
        _ => damage_image(r, &mut case.start),
    }
}

/// A text for chartrun, sound or damaged.
pub fn text(seed: u64) -> Vec<u8> {
    let mut r = Random::new(seed ^ 0x7465_7874);
    let count = match r.under(8) {
        0 => 0,
        1 => 1_000,
        2 => r.one_of(&[999, 1_001, 1_002]),
        _ => r.between(1, 300),
    };
    let machine = Machine::new(text::CAPACITIES, Types { rows: text::ROWS.to_vec() }, Graph::default());
    let mut lines: Vec<Vec<u8>> =
        calls(&mut r, machine, count, false).iter().map(|c| format!("{} {} {} {} {}\n", c[0], c[1], c[2], c[3], c[4]).into_bytes()).collect();
    if !lines.is_empty() && r.once_in(2) {
        for _ in 0..r.one_of(&[1, 1, 1, 2, 3]) {
            let at = r.under(lines.len());
            damage_line(&mut r, &mut lines[at]);
        }
    }
    let mut input = lines.concat();
    match r.under(20) {
        0 => {
            input.pop();
        }
        1 => input.extend(b"1 1 0 7 0"),
        2 => input.push(b'\n'),
        // A length at the limit, with newlines or without.
        3 => {
            let filler = r.one_of(b"\n0 ");
            input.resize(r.one_of(&[59_999, 60_000, 60_001, 60_002, 100_000]), filler);
        }
        4 => {
            let keep = r.under(input.len() + 1);
            input.truncate(keep);
        }
        _ => {}
    }
    input
}

fn damage_line(r: &mut Random, line: &mut Vec<u8>) {
    let numbers: Vec<String> = String::from_utf8_lossy(line).split_whitespace().map(String::from).collect();
    if numbers.is_empty() {
        return;
    }
    let at = r.under(numbers.len());
    let mut changed = numbers.clone();
    let long = "1".repeat(r.between(10, 40));
    match r.under(12) {
        0 => changed[at] = format!("0{}", changed[at]),
        1 => {
            changed[at] =
                r.one_of(&["4294967296", "4294967295", "4294967299", "9999999999", "18446744073709551616", "00", "0", "-1", "+1", "1.", "0x1", ""]).into()
        }
        2 => changed[at] = long,
        3 => changed.push("0".into()),
        4 => {
            changed.pop();
        }
        5 => changed.clear(),
        6 => {
            let at = r.under(line.len());
            line[at] = r.one_of(&[0, b'\t', b'\r', b' ', b'\n', b'/', b':', b'a', 0x80, 0xff, b'7']);
            return;
        }
        7 => {
            let at = r.under(line.len());
            line.insert(at, r.one_of(b" \n\r\t0\x00"));
            return;
        }
        8 => {
            let at = r.under(line.len());
            line.remove(at);
            return;
        }
        9 => {
            let end = line.len() - 1;
            line.insert(end, r.one_of(b" \r"));
            return;
        }
        10 => {
            line.insert(0, b' ');
            return;
        }
        _ => changed[at] = "4294967295".into(),
    }
    *line = (changed.join(" ") + "\n").into_bytes();
}
