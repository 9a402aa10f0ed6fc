//! The image of a graph: its words, its parts, and which words load.

use crate::machine::{Capacities, Edge, Graph, Reading, Vertex};
use std::collections::{BTreeSet, HashSet};

/// Words of a vertex record: number, type, value, degree.
pub const RECORD: usize = 4;
/// The old record is without the degree. It is read, and no more written.
pub const OLD_RECORD: usize = 3;

/// The words that a graph saves as.
pub fn save(g: &Graph) -> Vec<u32> {
    save_as(g, RECORD)
}

/// The words that it saved as when records had no degree.
pub fn save_old(g: &Graph) -> Vec<u32> {
    save_as(g, OLD_RECORD)
}

fn save_as(g: &Graph, record: usize) -> Vec<u32> {
    let (v, e) = (g.vertices.len() as u32, g.edges.len() as u32);
    let edges_at = 6 + record as u32 * v;
    let mut words = vec![v, e, 6, edges_at, edges_at + 6 * e, edges_at + 8 * e];
    for v in &g.vertices {
        words.extend(&[v.number, v.ty, v.value, v.list.len() as u32][..record]);
    }
    for e in &g.edges {
        words.extend([e.number, e.alpha, e.omega, e.ty, e.reading.kind(), e.reading.decimetres()]);
    }
    for v in &g.vertices {
        words.extend(&v.list);
    }
    words
}

/// The size of the vertex records, which the edge offset tells; nothing where length, offsets and total are not those
/// of the counts and this size. Without vertices both sizes have the same header.
pub fn record_size(words: &[u32]) -> Option<usize> {
    if words.len() < 6 {
        return None;
    }
    let at = |i: usize| words[i] as u64;
    let (v, e) = (at(0), at(1));
    let record = [RECORD, OLD_RECORD].into_iter().find(|record| at(3) == 6 + *record as u64 * v)?;
    let sound = at(2) == 6 && at(4) == at(3) + 6 * e && at(5) == at(3) + 8 * e && at(5) == words.len() as u64;
    sound.then_some(record)
}

/// Whether this offset is that of a degree.
pub fn is_degree(words: &[u32], at: usize) -> bool {
    record_size(words) == Some(RECORD) && (6..words[3] as usize).contains(&at) && (at - 6) % RECORD == 3
}

/// Part 1, 2 or 3 as offset and length; else, and without a sound header, nothing.
pub fn part(words: &[u32], which: u32) -> Option<(usize, usize)> {
    record_size(words).filter(|_| (1..=3).contains(&which))?;
    let from = words[1 + which as usize] as usize;
    let to = words[2 + which as usize] as usize;
    Some((from, to - from))
}

/// REFERENCE 1.12: whether a graph is within the capacities, with types below `types`.
pub fn is_chart(g: &Graph, capacities: Capacities, types: u32) -> bool {
    let mut vertices = HashSet::new();
    let mut edges = HashSet::new();
    let vertices_good = g.vertices.iter().all(|v| (1..=capacities.vertices).contains(&v.number) && v.ty < types && vertices.insert(v.number));
    let edges_good = g.edges.iter().all(|e| {
        (1..=capacities.edges).contains(&e.number)
            && e.ty < types
            && edges.insert(e.number)
            && vertices.contains(&e.alpha)
            && vertices.contains(&e.omega)
            && Reading::of(e.reading.kind(), e.reading.decimetres()) == Some(e.reading)
    });
    if !vertices_good || !edges_good {
        return false;
    }
    // Each list holds each oriented word whose `this` is its vertex, once.
    let mut due: HashSet<(u32, u32)> = HashSet::new();
    for e in &g.edges {
        due.insert((e.alpha, 2 * e.number));
        due.insert((e.omega, 2 * e.number + 1));
    }
    g.vertices.iter().all(|v| v.list.iter().all(|w| due.remove(&(v.number, *w)))) && due.is_empty()
}

/// Why words do not load; where single words are to blame, the offset of the first of them.
#[derive(Clone, Copy, PartialEq, Eq, Debug)]
pub enum Bad {
    Header,
    Record(usize),
    Incidence(usize),
}

impl Bad {
    pub fn code(self) -> u32 {
        match self {
            Bad::Header => 105,
            Bad::Record(_) => 108,
            Bad::Incidence(_) => 109,
        }
    }

    /// The second number of a refused list.
    pub fn number(self) -> usize {
        match self {
            Bad::Header => 0,
            Bad::Record(at) | Bad::Incidence(at) => at,
        }
    }
}

/// The first thing that is bad: header and counts, then each record but for its degree, then the degrees, then each list.
pub fn bad(words: &[u32], capacities: Capacities, types: u32) -> Option<Bad> {
    let Some(record) = record_size(words) else { return Some(Bad::Header) };
    if words[0] > capacities.vertices || words[1] > capacities.edges || (words[0] == 0 && words[1] > 0) {
        return Some(Bad::Header);
    }
    let (edges_at, lists_at) = (words[3] as usize, words[4] as usize);
    let mut vertices = BTreeSet::new();
    for at in (6..edges_at).step_by(record) {
        let number_good = (1..=capacities.vertices).contains(&words[at]) && vertices.insert(words[at]);
        let good = [number_good, words[at + 1] < types];
        if let Some(i) = good.iter().position(|good| !good) {
            return Some(Bad::Record(at + i));
        }
    }
    let mut edges = BTreeSet::new();
    for at in (edges_at..lists_at).step_by(6) {
        let [number, alpha, omega, ty, kind, decimetres]: [u32; 6] = words[at..at + 6].try_into().unwrap();
        let good = [
            (1..=capacities.edges).contains(&number) && edges.insert(number),
            vertices.contains(&alpha),
            vertices.contains(&omega),
            ty < types,
            // Some decimetres go with it.
            Reading::of(kind, 0).is_some(),
            Reading::of(kind, decimetres).is_some(),
        ];
        if let Some(i) = good.iter().position(|good| !good) {
            return Some(Bad::Record(at + i));
        }
    }
    // The words that an edge part has for a vertex.
    let due = |vertex: u32| -> BTreeSet<u32> {
        let ends = words[edges_at..lists_at].chunks(6).flat_map(|e| [(e[1], 2 * e[0]), (e[2], 2 * e[0] + 1)]);
        ends.filter(|end| end.0 == vertex).map(|end| end.1).collect()
    };
    if record == RECORD {
        let wrong = |at: &usize| words[*at + 3] as usize != due(words[*at]).len();
        if let Some(at) = (6..edges_at).step_by(record).find(wrong) {
            return Some(Bad::Record(at + 3));
        }
    }
    let mut at = lists_at;
    for v in words[6..edges_at].chunks(record) {
        let mut due = due(v[0]);
        while !due.is_empty() {
            if !due.remove(&words[at]) {
                return Some(Bad::Incidence(at));
            }
            at += 1;
        }
    }
    None
}

/// The same by another way: what is bad in the words without their degrees, and the first degree that is not the number
/// of ends at its vertex.
pub fn bad_by_old_record(words: &[u32], capacities: Capacities, types: u32) -> Option<Bad> {
    if record_size(words) != Some(RECORD) {
        return bad(words, capacities, types);
    }
    let (v, e) = (words[0] as usize, words[1] as usize);
    let (edges_at, lists_at) = (words[3] as usize, words[4] as usize);
    let mut old = vec![v as u32, e as u32, 6];
    old.extend([0, 6 * e, 8 * e].map(|more| (6 + OLD_RECORD * v + more) as u32));
    words[6..edges_at].chunks(RECORD).for_each(|record| old.extend(&record[..OLD_RECORD]));
    old.extend(&words[edges_at..]);
    let degree = |vertex: u32| words[edges_at..lists_at].chunks(6).flat_map(|e| [e[1], e[2]]).filter(|end| *end == vertex).count();
    let wrong = (0..v).map(|i| 6 + RECORD * i).find(|at| words[at + 3] as usize != degree(words[*at]));
    match (bad(&old, capacities, types), wrong) {
        (Some(Bad::Header), _) => Some(Bad::Header),
        (Some(Bad::Record(at)), _) if at < old[3] as usize => Some(Bad::Record(at + (at - 6) / OLD_RECORD)),
        (Some(Bad::Record(at)), _) => Some(Bad::Record(at + v)),
        (_, Some(at)) => Some(Bad::Record(at + 3)),
        (Some(Bad::Incidence(at)), None) => Some(Bad::Incidence(at + v)),
        (None, None) => None,
    }
}

/// The graph that saves as exactly these words, or did with the old record, if there is one.
pub fn load(words: &[u32], capacities: Capacities, types: u32) -> Option<Graph> {
    let g = read(words)?;
    (is_chart(&g, capacities, types) && (save(&g) == words || save_old(&g) == words)).then_some(g)
}

/// Reads words as a graph. Each list is as long as the ends in the edge part say; degrees are not looked at.
fn read(words: &[u32]) -> Option<Graph> {
    let record = record_size(words)?;
    let (edges_at, lists_at) = (words[3] as usize, words[4] as usize);
    let mut edges = Vec::new();
    for e in words[edges_at..lists_at].chunks(6) {
        edges.push(Edge { number: e[0], alpha: e[1], omega: e[2], ty: e[3], reading: Reading::of(e[4], e[5])? });
    }
    let mut vertices = Vec::new();
    let mut rest = &words[lists_at..];
    for v in words[6..edges_at].chunks(record) {
        let degree: usize = edges.iter().map(|e| (e.alpha == v[0]) as usize + (e.omega == v[0]) as usize).sum();
        if degree > rest.len() {
            return None;
        }
        let (list, after) = rest.split_at(degree);
        rest = after;
        vertices.push(Vertex { number: v[0], ty: v[1], value: v[2], list: list.to_vec() });
    }
    Some(Graph { vertices, edges })
}

#[cfg(test)]
mod tests {
    use super::*;
    use crate::examples::{CAPACITIES, SEVEN_IMAGE, SEVEN_OLD};

    fn verdict(words: &[u32]) -> Option<Bad> {
        let found = bad(words, CAPACITIES, 1);
        assert_eq!(found, bad_by_old_record(words, CAPACITIES, 1), "{words:?}");
        assert_eq!(found.is_none(), load(words, CAPACITIES, 1).is_some(), "{words:?}");
        found
    }

    /// Seven with other words at some places.
    fn seven(changes: &[(usize, u32)]) -> Vec<u32> {
        let mut words = SEVEN_IMAGE.to_vec();
        changes.iter().for_each(|(at, word)| words[*at] = *word);
        words
    }

    #[test]
    fn both_records_are_one_chart() {
        let chart = load(&SEVEN_OLD, CAPACITIES, 1).unwrap();
        assert_eq!(load(&SEVEN_IMAGE, CAPACITIES, 1).as_ref(), Some(&chart));
        assert_eq!((save(&chart), save_old(&chart)), (SEVEN_IMAGE.to_vec(), SEVEN_OLD.to_vec()));
        assert_eq!((verdict(&SEVEN_IMAGE), verdict(&SEVEN_OLD)), (None, None));
        assert_eq!(save(&Graph::default()), save_old(&Graph::default()));
    }

    #[test]
    fn headers_of_two_records() {
        // Every mix of the old and the new offsets and total, with as many words as either has.
        for mix in 0..8 {
            for len in [74, 78] {
                let mut words: Vec<u32> = if len == 74 { SEVEN_OLD.to_vec() } else { SEVEN_IMAGE.to_vec() };
                for (bit, at) in [3, 4, 5].into_iter().enumerate() {
                    words[at] = if mix >> bit & 1 == 1 { SEVEN_IMAGE[at] } else { SEVEN_OLD[at] };
                }
                let one = (mix == 0 && len == 74) || (mix == 7 && len == 78);
                assert_eq!(verdict(&words), if one { None } else { Some(Bad::Header) });
                assert_eq!(part(&words, 1).is_some(), one);
            }
        }
        assert_eq!(part(&SEVEN_OLD, 1), Some((6, 12)));
        assert_eq!(part(&SEVEN_IMAGE, 1), Some((6, 16)));
    }

    #[test]
    fn degrees_after_all_other_record_words() {
        // A wrong degree in the first, a middle and the last record, two at once, one that counts the loop once.
        assert_eq!(verdict(&seven(&[(9, 5)])), Some(Bad::Record(9)));
        assert_eq!(verdict(&seven(&[(17, 1)])), Some(Bad::Record(17)));
        assert_eq!(verdict(&seven(&[(21, 3)])), Some(Bad::Record(21)));
        assert_eq!(verdict(&seven(&[(13, 6), (9, 4)])), Some(Bad::Record(9)));
        // A bad word of a later vertex, of an edge, of a list beside it.
        assert_eq!(verdict(&seven(&[(9, 5), (19, 1)])), Some(Bad::Record(19)));
        assert_eq!(verdict(&seven(&[(9, 5), (63, 1)])), Some(Bad::Record(63)));
        assert_eq!(verdict(&seven(&[(21, 5), (64, 0)])), Some(Bad::Record(21)));
        assert_eq!(verdict(&seven(&[(64, 0)])), Some(Bad::Incidence(64)));
        // Another end: the vertex that has one end more, whose record is first.
        assert_eq!(verdict(&seven(&[(24, 2)])), Some(Bad::Record(9)));
        assert_eq!(verdict(&seven(&[(24, 2), (9, 5), (13, 5)])), Some(Bad::Incidence(65)));
    }
}
