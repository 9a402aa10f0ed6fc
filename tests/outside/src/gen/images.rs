//! Images, old and new, sound and damaged, from a seed.

use super::{graph, Random};
use crate::image;
use crate::machine::{Capacities, Graph};

/// The words of a graph, now and then its old ones.
pub fn saved(r: &mut Random, g: &Graph) -> Vec<u32> {
    if r.once_in(3) {
        image::save_old(g)
    } else {
        image::save(g)
    }
}

/// Changes some words of an image, old or new; a few changes leave it loadable.
pub fn damage_image(r: &mut Random, words: &mut Vec<u32>) {
    let len = words.len();
    let near = |r: &mut Random, w: u32| match r.under(6) {
        0 => w.wrapping_add(1),
        1 => w.wrapping_sub(1),
        2 => 0,
        3 => r.word(),
        4 => w ^ 1,
        _ => r.under(24) as u32,
    };
    let record = image::record_size(words);
    match r.under(14) {
        0 => {
            let keep = r.under(len + 1);
            words.truncate(keep);
        }
        1 => {
            let more = r.between(1, 8);
            words.extend(r.junk(more));
        }
        2 => {
            let n = r.under(40);
            *words = r.junk(n);
        }
        3 if len >= 6 => {
            let at = r.under(6);
            words[at] = near(r, words[at]);
        }
        4 if len > 8 => {
            // Two words of the incidence part change places: sound where both are in one list.
            let lists = words[4] as usize;
            if lists + 1 < len {
                let i = r.between(lists, len - 2);
                let j = if r.once_in(2) { i + 1 } else { r.between(lists, len - 1) };
                words.swap(i, j);
            }
        }
        5 if len > 8 => {
            let lists = (words[4] as usize).min(len - 1);
            let (i, j) = (r.between(lists, len - 1), r.between(lists, len - 1));
            words[i] = words[j];
        }
        6 | 7 if record.is_some() => {
            // A field of a record takes the value of the same field of another.
            let (v, e, size) = (words[0] as usize, words[1] as usize, record.unwrap());
            if e > 0 && r.once_in(2) {
                let at = 6 + size * v;
                let f = r.under(6);
                words[at + 6 * r.under(e) + f] = words[at + 6 * r.under(e) + f];
            } else if v > 0 {
                let f = r.under(size);
                words[6 + size * r.under(v) + f] = words[6 + size * r.under(v) + f];
            }
            // So that what is left is wrong in the lists alone.
            if r.once_in(2) {
                mend_degrees(words);
            }
        }
        8 | 9 if record.is_some() => {
            // Offsets and total of the other record, all or some; now and then with its number of words.
            let (v, e) = (words[0] as usize, words[1] as usize);
            let edges_at = 6 + v * (image::RECORD + image::OLD_RECORD - record.unwrap());
            let all = r.once_in(3);
            for (at, more) in [(3, 0), (4, 6 * e), (5, 8 * e)] {
                if all || r.once_in(2) {
                    words[at] = (edges_at + more) as u32;
                }
            }
            if r.once_in(2) {
                words.resize(edges_at + 8 * e, 0);
            }
        }
        10 | 11 if record == Some(image::RECORD) && words[0] > 0 => {
            // Wrong degrees, with their sum as it was or not, alone or beside another bad word.
            let v = words[0] as usize;
            let degree = |r: &mut Random| 6 + image::RECORD * r.under(v) + 3;
            let (i, j) = (degree(r), degree(r));
            match r.under(3) {
                0 => words.swap(i, j),
                1 => words[i] = near(r, words[i]),
                _ => (words[i], words[j]) = (near(r, words[i]), near(r, words[j])),
            }
            if r.once_in(2) {
                let at = r.between(6, len - 1);
                words[at] = near(r, words[at]);
            }
        }
        _ if len > 6 => {
            let at = r.between(6, len - 1);
            words[at] = near(r, words[at]);
        }
        _ => words.push(0),
    }
}

/// Degrees that the ends of the edges add up to, where words have both.
fn mend_degrees(words: &mut [u32]) {
    if image::record_size(words) == Some(image::RECORD) {
        let (edges_at, lists_at) = (words[3] as usize, words[4] as usize);
        let ends: Vec<u32> = words[edges_at..lists_at].chunks(6).flat_map(|e| [e[1], e[2]]).collect();
        for record in words[6..edges_at].chunks_mut(image::RECORD) {
            record[3] = ends.iter().filter(|end| **end == record[0]).count() as u32;
        }
    }
}

/// Words for the parts of an image, old or new, sound or damaged.
pub fn words(seed: u64) -> Vec<u32> {
    let mut r = Random::new(seed ^ 0x7061_7274);
    let exactly = r.once_in(2);
    let g = graph(&mut r, Capacities { vertices: 6, edges: 8, changes: 1 }, 3, (6, 8), exactly);
    let mut words = saved(&mut r, &g);
    if r.once_in(2) {
        damage_image(&mut r, &mut words);
    }
    words
}
