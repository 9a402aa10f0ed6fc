//! The plain machine of REFERENCE 4.1. It keeps a whole graph for every step and searches lists from their start.

use std::collections::BTreeMap;

/// REFERENCE 1.4.
#[derive(Clone, Copy, PartialEq, Eq, Debug)]
pub enum Reading {
    Untested,
    Silent,
    Heard(u32),
}

impl Reading {
    /// The reading that these two words name, if they name one.
    pub fn of(kind: u32, decimetres: u32) -> Option<Reading> {
        match kind {
            0 if decimetres == 0 => Some(Reading::Untested),
            1 if decimetres == 0 => Some(Reading::Silent),
            2 if decimetres <= 9_999 => Some(Reading::Heard(decimetres)),
            _ => None,
        }
    }

    pub fn kind(self) -> u32 {
        match self {
            Reading::Untested => 0,
            Reading::Silent => 1,
            Reading::Heard(_) => 2,
        }
    }

    pub fn decimetres(self) -> u32 {
        match self {
            Reading::Heard(d) => d,
            _ => 0,
        }
    }
}

#[derive(Clone, PartialEq, Eq, Debug)]
pub struct Vertex {
    pub number: u32,
    pub ty: u32,
    pub value: u32,
    /// The incidence list, oriented words in order.
    pub list: Vec<u32>,
}

#[derive(Clone, PartialEq, Eq, Debug)]
pub struct Edge {
    pub number: u32,
    pub alpha: u32,
    pub omega: u32,
    pub ty: u32,
    pub reading: Reading,
}

/// Vertices in the order of Vseq, edges in that of Eseq.
#[derive(Clone, PartialEq, Eq, Debug, Default)]
pub struct Graph {
    pub vertices: Vec<Vertex>,
    pub edges: Vec<Edge>,
}

impl Graph {
    pub fn vertex(&self, number: u32) -> Option<&Vertex> {
        self.vertices.iter().find(|v| v.number == number)
    }

    pub fn edge(&self, number: u32) -> Option<&Edge> {
        self.edges.iter().find(|e| e.number == number)
    }

    fn vertex_mut(&mut self, number: u32) -> &mut Vertex {
        self.vertices.iter_mut().find(|v| v.number == number).unwrap()
    }

    fn edge_mut(&mut self, number: u32) -> &mut Edge {
        self.edges.iter_mut().find(|e| e.number == number).unwrap()
    }

    /// The vertex that an oriented word is seen from.
    pub fn this(&self, word: u32) -> Option<u32> {
        self.edge(word / 2).map(|e| if word % 2 == 0 { e.alpha } else { e.omega })
    }

    /// The other end.
    pub fn that(&self, word: u32) -> Option<u32> {
        self.edge(word / 2).map(|e| if word % 2 == 0 { e.omega } else { e.alpha })
    }

    /// The list of the vertex that an oriented word is seen from.
    fn list_of(&self, word: u32) -> &[u32] {
        &self.vertex(self.this(word).unwrap()).unwrap().list
    }

    /// The distinct edges at a vertex, in the order of its list.
    pub fn edges_at(&self, number: u32) -> Vec<u32> {
        let mut found = Vec::new();
        for w in &self.vertex(number).unwrap().list {
            if !found.contains(&(w / 2)) {
                found.push(w / 2);
            }
        }
        found
    }

    fn delete_edge(&mut self, number: u32) {
        self.edges.retain(|e| e.number != number);
        for v in &mut self.vertices {
            v.list.retain(|w| w / 2 != number);
        }
    }

    /// The oriented word leaves its list and becomes last at `to`.
    fn reattach(&mut self, word: u32, to: u32) {
        let from = self.this(word).unwrap();
        self.vertex_mut(from).list.retain(|w| *w != word);
        self.vertex_mut(to).list.push(word);
        let e = self.edge_mut(word / 2);
        if word % 2 == 0 {
            e.alpha = to;
        } else {
            e.omega = to;
        }
    }

    /// One way of the price list: what the last walk from a to b heard. A walk is a word of a's list that goes out to b,
    /// with a reading that is not untested (REFERENCE 6.1).
    fn one_way(&self, a: u32, b: u32) -> Option<u32> {
        let out = self.vertex(a)?.list.iter().filter(|w| *w % 2 == 0).map(|w| self.edge(w / 2).unwrap());
        let walk = out.filter(|e| e.omega == b && e.reading != Reading::Untested).last()?;
        match walk.reading {
            Reading::Heard(d) => Some(d),
            _ => None,
        }
    }

    /// This graph after a change that codes 1 to 9 allow.
    pub fn changed(&self, [kind, a, b, c, d]: Call) -> Graph {
        let mut g = self.clone();
        match kind {
            1 => g.vertices.push(Vertex { number: a, ty: b, value: c, list: vec![] }),
            2 => {
                for e in g.edges_at(a) {
                    g.delete_edge(e);
                }
                g.vertices.retain(|v| v.number != a);
            }
            3 => {
                g.edges.push(Edge { number: a, alpha: b, omega: c, ty: d, reading: Reading::Untested });
                g.vertex_mut(b).list.push(2 * a);
                g.vertex_mut(c).list.push(2 * a + 1);
            }
            4 => g.delete_edge(a),
            5 => g.vertex_mut(a).ty = b,
            6 => g.edge_mut(a).ty = b,
            7 => g.vertex_mut(a).value = b,
            8 => g.edge_mut(a).reading = Reading::of(b, c).unwrap(),
            9 => g.reattach(2 * a, b),
            10 => g.reattach(2 * a + 1, b),
            11 | 12 => place_beside(&mut g.vertices, |v| v.number, a, b, kind == 12),
            13 | 14 => place_beside(&mut g.edges, |e| e.number, a, b, kind == 14),
            15 | 16 => {
                let this = g.this(a).unwrap();
                place_beside(&mut g.vertex_mut(this).list, |w| *w, a, b, kind == 16);
            }
            _ => unreachable!(),
        }
        g
    }

    /// The smaller of both ways.
    pub fn two_way(&self, a: u32, b: u32) -> Option<u32> {
        Some(self.one_way(a, b)?.min(self.one_way(b, a)?))
    }
}

/// Takes the item with key `a` out and puts it directly before or after the one with key `b`.
fn place_beside<T>(items: &mut Vec<T>, key: impl Fn(&T) -> u32, a: u32, b: u32, after: bool) {
    let from = items.iter().position(|x| key(x) == a).unwrap();
    let item = items.remove(from);
    let to = items.iter().position(|x| key(x) == b).unwrap();
    items.insert(to + after as usize, item);
}

/// The key after `a`, or 0.
fn next_after<T>(items: &[T], key: impl Fn(&T) -> u32, a: u32) -> u32 {
    let at = items.iter().position(|x| key(x) == a).unwrap();
    items.get(at + 1).map_or(0, key)
}

fn is_before<T>(items: &[T], key: impl Fn(&T) -> u32, a: u32, b: u32) -> u32 {
    let at = |n| items.iter().position(|x| key(x) == n).unwrap();
    (at(a) < at(b)) as u32
}

/// The type rows (REFERENCE 1.9).
#[derive(Clone, Debug)]
pub struct Types {
    pub rows: Vec<u64>,
}

impl Types {
    pub fn count(&self) -> u32 {
        self.rows.len() as u32
    }

    /// REFERENCE 1.10, by a search from s.
    pub fn below(&self, s: u32, t: u32) -> bool {
        let mut reached = vec![s];
        let mut next = 0;
        while next < reached.len() {
            let from = reached[next];
            next += 1;
            for to in 0..self.count() {
                let declared = self.rows[from as usize] >> to & 1 == 1;
                if (declared || to == 0) && !reached.contains(&to) {
                    reached.push(to);
                }
            }
        }
        reached.contains(&t)
    }
}

#[derive(Clone, Copy, Debug)]
pub struct Capacities {
    pub vertices: u32,
    pub edges: u32,
    pub changes: u32,
}

/// Kind, a, b, c, d.
pub type Call = [u32; 5];

/// The two words of a mark's name.
pub type Name = [u32; 2];

/// The benches are 0 to this.
pub const LAST_BENCH: u32 = 99;

/// What made a graph from the one before.
#[derive(Clone, Copy, PartialEq, Eq, Debug)]
pub struct Step {
    pub cost: u32,
    pub bench: u32,
}

pub fn is_kind(kind: u32) -> bool {
    (1..=22).contains(&kind) || (30..=54).contains(&kind) || (56..=59).contains(&kind)
}

pub fn is_change(kind: u32) -> bool {
    (1..=16).contains(&kind)
}

/// The vertices that a call names. A vertex that is created is not among them.
fn vertices_named([kind, a, b, c, _]: Call) -> Vec<u32> {
    match kind {
        2 | 5 | 7 | 31 | 34 | 40 | 42 | 45 => vec![a],
        3 => vec![b, c],
        9 | 10 => vec![b],
        11 | 12 | 46 | 53 | 54 => vec![a, b],
        _ => vec![],
    }
}

/// The edges that a call names; an oriented word names its edge.
fn edges_named([kind, a, b, _, _]: Call) -> Vec<u32> {
    match kind {
        4 | 6 | 8 | 9 | 10 | 33 | 36 | 37 | 41 | 43 | 44 => vec![a],
        13 | 14 | 47 => vec![a, b],
        15 | 16 | 48 => vec![a / 2, b / 2],
        35 | 38 | 39 => vec![a / 2],
        _ => vec![],
    }
}

/// The types and classes that a call names.
fn types_named([kind, a, b, _, d]: Call) -> Vec<u32> {
    match kind {
        1 | 5 | 6 | 45 => vec![b],
        3 => vec![d],
        52 => vec![a, b],
        _ => vec![],
    }
}

fn marks_named([kind, a, b, _, _]: Call) -> Vec<u32> {
    match kind {
        17 | 18 | 21 | 56 => vec![a],
        49 | 59 => vec![a, b],
        _ => vec![],
    }
}

pub struct Machine {
    pub capacities: Capacities,
    pub types: Types,
    /// G0 to Gm.
    pub graphs: Vec<Graph>,
    /// The step that made each of G1 to Gm.
    pub steps: Vec<Step>,
    /// The bench of later steps.
    pub bench: u32,
    /// p
    pub place: usize,
    /// The place of each standing mark.
    pub marks: BTreeMap<u32, usize>,
    /// The name of each standing mark that has one.
    pub names: BTreeMap<u32, Name>,
    /// What is left to all stores of a run; of one alone, no limit.
    pub joint: u32,
}

impl Machine {
    pub fn new(capacities: Capacities, types: Types, start: Graph) -> Machine {
        Machine { capacities, types, graphs: vec![start], steps: vec![], bench: 0, place: 0, marks: BTreeMap::new(), names: BTreeMap::new(), joint: u32::MAX }
    }

    /// Gp
    pub fn present(&self) -> &Graph {
        &self.graphs[self.place]
    }

    /// The standing mark with this name.
    pub fn named(&self, name: Name) -> Option<u32> {
        self.names.iter().find(|held| *held.1 == name).map(|held| *held.0)
    }

    /// Names go with their marks.
    fn forget_names(&mut self) {
        let marks = &self.marks;
        self.names.retain(|mark, _| marks.contains_key(mark));
    }

    /// The costs of steps 1 to p.
    pub fn spent(&self) -> u32 {
        self.steps[..self.place].iter().map(|s| s.cost).sum::<u32>()
    }

    /// REFERENCE 4.4; no more than is left to all stores.
    pub fn free(&self) -> u32 {
        (self.capacities.changes - self.spent()).min(self.joint)
    }

    /// What the steps cost that a call would redo.
    fn redone(&self, [kind, a, b, ..]: Call) -> u32 {
        let to = match kind {
            20 => Some(self.steps.len().min(self.place + 1)),
            21 => self.marks.get(&a).copied(),
            57 => self.named([a, b]).map(|mark| self.marks[&mark]),
            _ => None,
        };
        to.filter(|to| *to > self.place).map_or(0, |to| self.steps[self.place..to].iter().map(|s| s.cost).sum())
    }

    /// REFERENCE 3.10.
    fn cost(&self, [kind, a, ..]: Call) -> u32 {
        match kind {
            2 => 1 + self.present().edges_at(a).len() as u32,
            _ => 1,
        }
    }

    /// The lowest code that applies, if one does.
    pub fn refusal(&self, call: Call) -> Option<u32> {
        let [kind, a, b, c, _] = call;
        let g = self.present();
        let vertices = vertices_named(call);
        let edges = edges_named(call);
        let marks = marks_named(call);
        let vertices_there = vertices.iter().all(|v| g.vertex(*v).is_some());
        let edges_there = edges.iter().all(|e| g.edge(*e).is_some());
        let mut codes = Vec::new();
        let mut test = |code: u32, applies: bool| {
            if applies {
                codes.push(code)
            }
            codes.is_empty()
        };
        test(1, !is_kind(kind));
        test(2, kind == 1 && (a == 0 || a > self.capacities.vertices));
        test(2, kind == 3 && (a == 0 || a > self.capacities.edges));
        test(3, kind == 1 && g.vertex(a).is_some());
        test(3, kind == 3 && g.edge(a).is_some());
        test(4, !vertices_there);
        test(5, !edges_there);
        test(6, types_named(call).iter().any(|t| *t >= self.types.count()));
        test(7, kind == 8 && Reading::of(b, c).is_none());
        // The tests below read what the call names; where that is missing, 4 or 5 is lower.
        if vertices_there && edges_there {
            test(8, matches!(kind, 15 | 16 | 48) && g.this(a) != g.this(b));
            // What a change makes of the graph is read only where it is allowed.
            if test(9, (11..=16).contains(&kind) && a == b) && is_change(kind) {
                test(10, self.cost(call) > self.free() && self.changed(call) != *g);
            }
        }
        test(10, self.redone(call) > self.free());
        test(11, marks.iter().any(|m| !(1..=64).contains(m)));
        test(12, kind == 17 && self.marks.contains_key(&a));
        test(13, kind != 17 && marks.iter().any(|m| !self.marks.contains_key(m)));
        test(14, kind == 19 && self.place == 0);
        test(14, kind == 20 && self.place == self.steps.len());
        test(15, kind == 45 && c > 2);
        test(16, matches!(kind, 53 | 54) && g.two_way(a, b).is_none());
        test(17, kind == 54 && c > 2);
        test(18, kind == 56 && [b, c] == [0, 0]);
        test(18, kind == 56 && self.named([b, c]).is_some_and(|holder| holder != a));
        test(19, kind == 57 && self.named([a, b]).is_none());
        test(20, kind == 58 && a > LAST_BENCH);
        test(20, kind == 59 && c > LAST_BENCH);
        codes.into_iter().min()
    }

    /// One call: its code and number.
    pub fn call(&mut self, call: Call) -> (u32, u32) {
        if let Some(code) = self.refusal(call) {
            return (code, 0);
        }
        let [kind, a, b, c, _] = call;
        let number = match kind {
            1..=16 => {
                let cost = self.cost(call);
                let changed = self.changed(call);
                if changed == *self.present() {
                    return (0, 0);
                }
                self.graphs.truncate(self.place + 1);
                self.steps.truncate(self.place);
                let place = self.place;
                self.marks.retain(|_, at| *at <= place);
                self.forget_names();
                self.graphs.push(changed);
                self.steps.push(Step { cost, bench: self.bench });
                self.place += 1;
                cost
            }
            17 => {
                self.marks.insert(a, self.place);
                0
            }
            18 => {
                self.marks.remove(&a);
                self.forget_names();
                0
            }
            19 => {
                self.place -= 1;
                1
            }
            20 => {
                self.place += 1;
                1
            }
            21 | 57 => {
                let mark = if kind == 21 { a } else { self.named([a, b]).unwrap() };
                let moved = self.place.abs_diff(self.marks[&mark]);
                self.place = self.marks[&mark];
                moved as u32
            }
            22 => {
                let place = self.place;
                self.graphs = vec![self.graphs.swap_remove(place)];
                self.steps.clear();
                self.place = 0;
                self.marks.clear();
                self.forget_names();
                place as u32
            }
            49 => self.marks[&a].abs_diff(self.marks[&b]) as u32,
            50 => self.marks.len() as u32,
            51 => self.free(),
            56 => {
                self.names.insert(a, [b, c]);
                0
            }
            58 => {
                self.bench = a;
                0
            }
            59 => {
                let (from, to) = (self.marks[&a].min(self.marks[&b]), self.marks[&a].max(self.marks[&b]));
                self.steps[from..to].iter().filter(|s| s.bench == c).count() as u32
            }
            _ => self.asked(call),
        };
        (0, number)
    }

    /// The graph after an accepted change.
    fn changed(&self, call: Call) -> Graph {
        self.present().changed(call)
    }

    /// The answer to an accepted question, from Gp and the type rows.
    fn asked(&self, [kind, a, b, c, _]: Call) -> u32 {
        let g = self.present();
        let vertex = |n| g.vertex(n).unwrap();
        let edge = |n| g.edge(n).unwrap();
        match kind {
            30 => g.vertices.first().map_or(0, |v| v.number),
            31 => next_after(&g.vertices, |v| v.number, a),
            32 => g.edges.first().map_or(0, |e| e.number),
            33 => next_after(&g.edges, |e| e.number, a),
            34 => vertex(a).list.first().copied().unwrap_or(0),
            35 => next_after(g.list_of(a), |w| *w, a),
            36 => edge(a).alpha,
            37 => edge(a).omega,
            38 => g.this(a).unwrap(),
            39 => g.that(a).unwrap(),
            40 => vertex(a).ty,
            41 => edge(a).ty,
            42 => vertex(a).value,
            43 => edge(a).reading.kind(),
            44 => edge(a).reading.decimetres(),
            45 => {
                let wanted = |w: &u32| match c {
                    0 => true,
                    1 => w % 2 == 0,
                    _ => w % 2 == 1,
                };
                let in_class = |w: &u32| self.types.below(edge(w / 2).ty, b);
                vertex(a).list.iter().filter(|w| wanted(w) && in_class(w)).count() as u32
            }
            46 => is_before(&g.vertices, |v| v.number, a, b),
            47 => is_before(&g.edges, |e| e.number, a, b),
            48 => is_before(g.list_of(a), |w| *w, a, b),
            52 => self.types.below(a, b) as u32,
            53 => g.two_way(a, b).unwrap(),
            54 => g.two_way(a, b).unwrap() / if c == 2 { 200 } else { 250 },
            _ => unreachable!(),
        }
    }
}
