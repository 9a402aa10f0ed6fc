//! The loads: lists of calls, most of them on a full graph, all of them accepted.

use outside::gen::{self, Random};
use outside::image;
use outside::machine::{Call, Capacities, Graph};
use outside::run::Case;
use outside::stores::Several;

pub const CAPACITIES: Capacities = Capacities { vertices: 1_000, edges: 4_000, changes: 20_000 };
/// Types 0 to 7, with 2 and 3 below 1 and 4 below 2.
pub const ROWS: [u64; 8] = [0, 0, 1 << 1, 1 << 1, 1 << 2, 0, 0, 0];

pub struct Load {
    pub name: &'static str,
    pub case: Case,
    /// The same load with fewer calls, for the plain machine.
    pub short: Case,
}

pub fn all() -> Vec<Load> {
    let start = gen::graph(&mut Random::new(1), CAPACITIES, ROWS.len() as u32, (1_000, 4_000), true);
    let at = |capacities: Capacities, graph: &Graph, calls: Vec<Call>| {
        let mut case = Case::new(capacities, &ROWS, &calls);
        case.start = image::save(graph);
        case
    };
    // The short list is the first so many calls.
    let load_at = |name, capacities: Capacities, graph: &Graph, calls: Vec<Call>, short: usize| {
        let first = calls[..short.min(calls.len())].to_vec();
        Load { name, case: at(capacities, graph, calls), short: at(capacities, graph, first) }
    };
    let load = |name, calls: Vec<Call>, short: usize| load_at(name, CAPACITIES, &start, calls, short);
    let empty = Graph::default();
    let least = Capacities { vertices: 1, edges: 1, changes: 1 };
    let edits = edits(&start, 20_000);
    let mut old = load("load of old words, and save", vec![], 0);
    old.case.start = image::save_old(&start);
    old.short.start = old.case.start.clone();
    let mut marked = load("64 marks over 19,200 steps", marks(&edits, 64, 300, 128), 0);
    marked.short = at(CAPACITIES, &start, marks(&edits, 16, 60, 128));
    vec![
        load("20,000 edits", edits.clone(), 1_000),
        load("20,000 changes that alter nothing", idle(&start, 20_000), 1_000),
        load("20,000 undos and redos in turn", in_turn(&edits[..100], [19, 0, 0, 0, 0], [20, 0, 0, 0, 0], 10_000), 1_000),
        load("20,000 changes and undos in turn", in_turn(&[], edits[0], [19, 0, 0, 0, 0], 10_000), 1_000),
        load("2,000 deletions of a vertex with 8 edges, each undone", deletions(&start, 2_000), 100),
        load_at("1,000 vertices and 4,000 edges made from nothing", CAPACITIES, &empty, making(&start), 500),
        marked,
        load("100,000 questions", questions(&start, 100_000, true), 5_000),
        load("100,000 questions without kinds 46 and 47", questions(&start, 100_000, false), 5_000),
        load("100,000 questions of one look-up", looks(&start, 100_000), 5_000),
        load("100,000 questions of kind 45", kept(&questions(&start, 2_000_000, false), 45, 100_000), 5_000),
        load("20,000 changes of kind 6", of_kind(&start, 6, 20_000), 1_000),
        load("20,000 changes of kind 8", of_kind(&start, 8, 20_000), 1_000),
        load("20,000 changes of kind 13", of_kind(&start, 13, 20_000), 1_000),
        load("20,000 changes and undos in turn, mark 64 alone", in_turn(&[[17, 64, 0, 0, 0]], edits[0], [19, 0, 0, 0, 0], 10_000), 1_000),
        load("20,000 edits, each undone, each redone", there_and_back(&edits), 1_000),
        load_at("one call at capacities 1, 1, 1", least, &empty, vec![[30, 0, 0, 0, 0]], 1),
        load_at("one call at the limits, no graph", CAPACITIES, &empty, vec![[30, 0, 0, 0, 0]], 1),
        old,
        load("load and save", vec![], 0),
    ]
}

/// Graphs of 10 to 1,000 vertices, each with four times as many edges, and lists of 100 to 20,000 edits on each. The lists
/// of a graph begin alike; the first has no call.
pub fn growing() -> Vec<Vec<Load>> {
    let lists = |vertices: u32| {
        let capacities = Capacities { vertices, edges: 4 * vertices, changes: 20_000 };
        let graph = gen::graph(&mut Random::new(1), capacities, ROWS.len() as u32, (vertices, 4 * vertices), true);
        let edits = edits(&graph, 20_000);
        let list = |count: usize| {
            let mut case = Case::new(capacities, &ROWS, &edits[..count]);
            case.start = image::save(&graph);
            Load { name: "edits", short: case.clone(), case }
        };
        [0, 100, 1_000, 20_000].map(list).into()
    };
    [10, 100, 1_000].map(lists).into()
}

/// A load of several stores.
pub struct Shared {
    pub name: String,
    pub several: Several,
    /// The same with fewer calls, for the plain machines.
    pub short: Several,
}

/// The tables of the other loads cut into eight, each store with a full graph, and 20,000 edits, which the limit just
/// allows: the stores in turn, one call or many at a time.
pub fn eight() -> Vec<Shared> {
    const STORES: u32 = 8;
    let capacities = Capacities { vertices: 125, edges: 500, changes: 2_500 };
    let most = (capacities.vertices, capacities.edges);
    let graphs: Vec<Graph> = (1..=STORES).map(|i| gen::graph(&mut Random::new(i as u64), capacities, ROWS.len() as u32, most, true)).collect();
    let edits: Vec<Vec<Call>> = graphs.iter().map(|g| edits(g, 2_500)).collect();
    let whole = Case::new(CAPACITIES, &ROWS, &[]);
    let start: Vec<u32> = graphs.iter().flat_map(image::save).collect();
    let list = |at_a_time: usize, each: usize| {
        let mut calls = Vec::new();
        for from in (0..each).step_by(at_a_time) {
            for (store, list) in (1..).zip(&edits) {
                calls.extend(list[from..each.min(from + at_a_time)].iter().flat_map(|call| [&[store], &call[..]].concat()));
            }
        }
        let answers = calls.len() / 3;
        // As many words as eight parts ask for.
        let image = STORES as usize * outside::run::image_room(capacities);
        Several { case: Case { start: start.clone(), calls, answers, image, ..whole.clone() }, stores: STORES, limit: 20_000 }
    };
    let load = |name: &str, at_a_time| Shared { name: name.into(), several: list(at_a_time, 2_500), short: list(at_a_time, 125) };
    vec![
        load("20,000 edits, eight stores in turn", 1),
        load("20,000 edits, eight stores, 10 calls at a time", 10),
        load("20,000 edits, eight stores, 500 calls at a time", 500),
    ]
}

/// A load of one store as one of several.
pub fn alone(load: &Load) -> Shared {
    Shared { name: load.name.into(), several: Several::alone(&load.case), short: Several::alone(&load.short) }
}

/// Two calls in turn, after some others.
fn in_turn(first: &[Call], one: Call, other: Call, times: usize) -> Vec<Call> {
    let mut calls = first.to_vec();
    for _ in 0..times {
        calls.extend([one, other]);
    }
    calls
}

/// Changes of kinds 5 to 16 to what is there already.
fn idle(g: &Graph, count: usize) -> Vec<Call> {
    let mut r = Random::new(5);
    let mut calls = Vec::new();
    while calls.len() < count {
        let (i, j) = (r.under(g.vertices.len() - 1), r.under(g.edges.len() - 1));
        let (v, e) = (&g.vertices[i], &g.edges[j]);
        let n = v.list.len();
        calls.push(match r.between(5, 16) as u32 {
            5 => [5, v.number, v.ty, 0, 0],
            6 => [6, e.number, e.ty, 0, 0],
            7 => [7, v.number, v.value, 0, 0],
            8 => [8, e.number, e.reading.kind(), e.reading.decimetres(), 0],
            9 | 10 if n > 0 => [9 + v.list[n - 1] % 2, v.list[n - 1] / 2, v.number, 0, 0],
            11 => [11, v.number, g.vertices[i + 1].number, 0, 0],
            12 => [12, g.vertices[i + 1].number, v.number, 0, 0],
            13 => [13, e.number, g.edges[j + 1].number, 0, 0],
            14 => [14, g.edges[j + 1].number, e.number, 0, 0],
            15 if n > 1 => [15, v.list[n - 2], v.list[n - 1], 0, 0],
            16 if n > 1 => [16, v.list[1], v.list[0], 0, 0],
            _ => continue,
        });
    }
    calls
}

/// Vertices with 8 distinct edges, each deleted and brought back.
fn deletions(g: &Graph, count: usize) -> Vec<Call> {
    let found: Vec<u32> = g.vertices.iter().map(|v| v.number).filter(|v| g.edges_at(*v).len() == 8).collect();
    found.iter().cycle().take(count).flat_map(|v| [[2, *v, 0, 0, 0], [19, 0, 0, 0, 0]]).collect()
}

/// The vertices and edges of a graph, made in their order.
fn making(g: &Graph) -> Vec<Call> {
    let vertices = g.vertices.iter().map(|v| [1, v.number, v.ty, v.value, 0]);
    let edges = g.edges.iter().map(|e| [3, e.number, e.alpha, e.omega, e.ty]);
    vertices.chain(edges).collect()
}

/// Changes of every kind that keeps the graph full, each of which alters it; an edge deleted is made again by the next call.
fn edits(start: &Graph, count: usize) -> Vec<Call> {
    changes(start, (4, 16), count)
}

/// Changes of one kind, each of which alters the graph.
fn of_kind(start: &Graph, kind: usize, count: usize) -> Vec<Call> {
    changes(start, (kind, kind), count)
}

/// The changes, then an undo and a redo of each.
fn there_and_back(changes: &[Call]) -> Vec<Call> {
    [changes, &vec![[19, 0, 0, 0, 0]; changes.len()], &vec![[20, 0, 0, 0, 0]; changes.len()]].concat()
}

fn changes(start: &Graph, kinds: (usize, usize), count: usize) -> Vec<Call> {
    let mut r = Random::new(2);
    let mut graph = start.clone();
    let (vertices, edges) = (start.vertices.len(), start.edges.len());
    let mut calls: Vec<Call> = Vec::new();
    while calls.len() < count {
        let v = r.between(1, vertices);
        let e = r.between(1, edges);
        let kind = r.between(kinds.0, kinds.1) as u32;
        let other = |r: &mut Random, than: usize, limit: usize| (than - 1 + r.between(1, limit - 1)) % limit + 1;
        let call = match kind {
            4 => {
                if calls.len() + 1 == count {
                    continue;
                }
                let deletion = [4, e as u32, 0, 0, 0];
                graph = graph.changed(deletion);
                calls.push(deletion);
                [3, e as u32, v as u32, other(&mut r, v, vertices) as u32, r.under(8) as u32]
            }
            5 => [5, v as u32, r.under(8) as u32, 0, 0],
            6 => [6, e as u32, r.under(8) as u32, 0, 0],
            7 => [7, v as u32, r.word(), 0, 0],
            8 => [8, e as u32, 2, r.under(10_000) as u32, 0],
            9 | 10 => [kind, e as u32, v as u32, 0, 0],
            11 | 12 => [kind, v as u32, other(&mut r, v, vertices) as u32, 0, 0],
            13 | 14 => [kind, e as u32, other(&mut r, e, edges) as u32, 0, 0],
            _ => {
                let list = &graph.vertex(v as u32).unwrap().list;
                if list.len() < 2 {
                    continue;
                }
                let i = r.under(list.len());
                let j = (i + r.between(1, list.len() - 1)) % list.len();
                [kind, list[i], list[j], 0, 0]
            }
        };
        let changed = graph.changed(call);
        if changed != graph {
            graph = changed;
            calls.push(call);
        }
    }
    calls
}

/// Marks after each `apart` edits, then `trips` from mark to mark.
fn marks(edits: &[Call], count: usize, apart: usize, trips: usize) -> Vec<Call> {
    let mut r = Random::new(3);
    let mut calls = Vec::new();
    for mark in 0..count {
        calls.extend(&edits[mark * apart..(mark + 1) * apart]);
        calls.push([17, mark as u32 + 1, 0, 0, 0]);
    }
    for _ in 0..trips {
        calls.push([21, r.between(1, count) as u32, 0, 0, 0]);
    }
    calls
}

/// So many calls of a kind.
fn kept(calls: &[Call], kind: u32, count: usize) -> Vec<Call> {
    calls.iter().filter(|call| call[0] == kind).take(count).copied().collect()
}

/// Questions that one look-up answers: no list is gone along.
fn looks(start: &Graph, count: usize) -> Vec<Call> {
    let walks = [45, 48, 53, 54];
    questions(start, 2 * count, false).into_iter().filter(|call| !walks.contains(&call[0])).take(count).collect()
}

/// Questions of every kind. 46 and 47, which walk the whole of an order, are one in a hundred, or none.
fn questions(start: &Graph, count: usize, orders: bool) -> Vec<Call> {
    let mut r = Random::new(4);
    let heard: Vec<(u32, u32)> = pairs(start);
    let mut calls = Vec::new();
    while calls.len() < count {
        let v = r.between(1, 1_000) as u32;
        let e = r.between(1, 4_000) as u32;
        let word = 2 * e + r.under(2) as u32;
        let kind =
            if orders && r.once_in(100) { r.one_of(&[46, 47]) } else { r.one_of(&[31, 33, 34, 35, 36, 37, 38, 39, 40, 41, 42, 43, 44, 45, 48, 52, 53, 54]) };
        calls.push(match kind {
            31 | 34 | 40 | 42 => [kind, v, 0, 0, 0],
            35 | 38 | 39 => [kind, word, 0, 0, 0],
            45 => [45, v, r.under(8) as u32, r.under(3) as u32, 0],
            46 => [46, v, r.between(1, 1_000) as u32, 0, 0],
            47 => [47, e, r.between(1, 4_000) as u32, 0, 0],
            48 => {
                let list = &start.vertex(start.this(word).unwrap()).unwrap().list;
                [48, word, list[r.under(list.len())], 0, 0]
            }
            52 => [52, r.under(8) as u32, r.under(8) as u32, 0, 0],
            53 | 54 => {
                let (a, b) = r.one_of(&heard);
                [kind, a, b, 0, 0]
            }
            _ => [kind, e, 0, 0, 0],
        });
    }
    calls
}

/// Pairs with something heard both ways.
fn pairs(g: &Graph) -> Vec<(u32, u32)> {
    let ends = g.edges.iter().map(|e| (e.alpha, e.omega));
    let mut both: Vec<(u32, u32)> = ends.filter(|(a, b)| g.two_way(*a, *b).is_some()).collect();
    both.sort();
    both.dedup();
    both
}
