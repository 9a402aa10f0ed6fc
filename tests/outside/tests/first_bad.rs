//! REFERENCE 10.12 by trying: what is said to be the first bad word is held against all small graphs, in both records.

use outside::gen::Random;
use outside::image::{self, Bad};
use outside::machine::{Capacities, Edge, Graph, Reading, Vertex};

const CAPACITIES: Capacities = Capacities { vertices: 2, edges: 2, changes: 1 };
const TYPES: u32 = 1;
/// Words that are put in are below this, so that the charts below have all that can be good in their place.
const WORDS: u32 = 4;

/// Each order of each choice of these items.
fn arrangements<T: Clone>(items: &[T]) -> Vec<Vec<T>> {
    let mut all = vec![vec![]];
    for i in 0..items.len() {
        let mut rest = items.to_vec();
        let first = rest.remove(i);
        all.extend(arrangements(&rest).into_iter().map(|mut list| {
            list.insert(0, first.clone());
            list
        }));
    }
    all
}

/// Each way to take one of each.
fn choices<T: Clone>(of: &[Vec<T>]) -> Vec<Vec<T>> {
    of.iter().fold(vec![vec![]], |all, next| all.iter().flat_map(|front| next.iter().map(move |last| [&front[..], &[last.clone()]].concat())).collect())
}

/// All charts within the capacities whose values are 0 and whose decimetres are below WORDS.
fn charts() -> Vec<Graph> {
    let readings: Vec<Reading> = [Reading::Untested, Reading::Silent].into_iter().chain((0..WORDS).map(Reading::Heard)).collect();
    let mut all = Vec::new();
    for vseq in arrangements(&[1, 2]) {
        for eseq in arrangements(&[1, 2]) {
            let edge = |number: &u32| {
                let mut edges = Vec::new();
                for (alpha, omega) in vseq.iter().flat_map(|alpha| vseq.iter().map(move |omega| (*alpha, *omega))) {
                    edges.extend(readings.iter().map(|reading| Edge { number: *number, alpha, omega, ty: 0, reading: *reading }));
                }
                edges
            };
            for edges in choices(&eseq.iter().map(edge).collect::<Vec<_>>()) {
                let lists = |v: &u32| {
                    let ends = edges.iter().flat_map(|e| [(e.alpha, 2 * e.number), (e.omega, 2 * e.number + 1)]);
                    let words: Vec<u32> = ends.filter(|end| end.0 == *v).map(|end| end.1).collect();
                    arrangements(&words).into_iter().filter(|list| list.len() == words.len()).collect()
                };
                for lists in choices(&vseq.iter().map(lists).collect::<Vec<_>>()) {
                    let vertex = |(number, list): (&u32, Vec<u32>)| Vertex { number: *number, ty: 0, value: 0, list };
                    all.push(Graph { vertices: vseq.iter().zip(lists).map(vertex).collect(), edges: edges.clone() });
                }
            }
        }
    }
    all
}

/// The offsets of words with a sound header in the order of reading.
fn reading_order(words: &[u32]) -> Vec<usize> {
    let mut all: Vec<usize> = (0..words.len()).collect();
    all.sort_by_key(|at| (*at >= words[4] as usize, image::is_degree(words, *at)));
    all
}

#[test]
fn the_first_word_that_cannot_follow() {
    let charts = charts();
    assert!(charts.iter().all(|g| image::is_chart(g, CAPACITIES, TYPES)));
    let images: Vec<Vec<u32>> = charts.iter().flat_map(|g| [image::save(g), image::save_old(g)]).collect();
    // Bad records but for degrees, bad degrees, bad lists, words that load.
    let mut reached = [0; 4];
    let mut r = Random::new(6);
    for _ in 0..2_000 {
        let mut words = images[r.under(images.len())].clone();
        let Some(record) = image::record_size(&words).filter(|_| words[1] > 0) else { continue };
        for _ in 0..r.between(1, 3) {
            let at = r.between(6, words.len() - 1);
            // Values are never bad.
            if at >= words[3] as usize || (at - 6) % record != 2 {
                words[at] = r.under(WORDS as usize) as u32;
            }
        }
        let bad = image::bad(&words, CAPACITIES, TYPES);
        let (at, which) = match bad {
            None => {
                assert!(images.contains(&words), "{words:?}");
                reached[3] += 1;
                continue;
            }
            Some(Bad::Header) => panic!("{words:?}"),
            Some(Bad::Record(at)) => (at, image::is_degree(&words, at) as usize),
            Some(Bad::Incidence(at)) => (at, 2),
        };
        reached[which] += 1;
        let order = reading_order(&words);
        let place = order.iter().position(|i| *i == at).unwrap();
        let some_have = |offsets: &[usize]| images.iter().any(|us| us.len() == words.len() && offsets.iter().all(|i| us[*i] == words[*i]));
        assert!(some_have(&order[..place]), "{words:?}: nothing that loads has what is before word {at}");
        assert!(!some_have(&order[..=place]), "{words:?}: word {at} can follow");
    }
    assert!(reached.iter().all(|count| *count > 30), "{reached:?}");
}
