//! Two images of one path, edge by edge.

use crate::image;
use crate::machine::{Edge, Reading};
use crate::page;

/// Matched, agreeing, only in the first and only in the second; or the code.
pub fn compare(first: &[u32], second: &[u32], tolerance: u32) -> Result<[u32; 4], u32> {
    let load = |words| image::load(words, page::CAPACITIES, page::TYPES);
    let Some(one) = load(first) else {
        return Err(image::bad(first, page::CAPACITIES, page::TYPES).expect("something is bad in words that do not load").code());
    };
    let Some(two) = load(second) else {
        return Err(110);
    };
    let other = |edges: &[Edge], e: &Edge| edges.iter().find(|f| (f.number, f.alpha, f.omega) == (e.number, e.alpha, e.omega)).cloned();
    let mut counts = [0; 4];
    for e in &one.edges {
        match other(&two.edges, e) {
            None => counts[2] += 1,
            Some(f) => {
                counts[0] += 1;
                counts[1] += agree(e.reading, f.reading, tolerance) as u32;
            }
        }
    }
    counts[3] = two.edges.iter().filter(|f| other(&one.edges, f).is_none()).count() as u32;
    Ok(counts)
}

fn agree(x: Reading, y: Reading, tolerance: u32) -> bool {
    match (x, y) {
        (Reading::Heard(x), Reading::Heard(y)) => x.abs_diff(y) <= tolerance,
        _ => x == y,
    }
}

#[cfg(test)]
mod tests {
    use super::*;

    const ONE: [u32; 44] =
        [2, 4, 6, 12, 36, 44, 1, 0, 0, 2, 0, 0, 1, 1, 2, 0, 2, 100, 2, 2, 1, 0, 1, 0, 3, 1, 1, 0, 0, 0, 5, 1, 2, 0, 2, 50, 2, 5, 6, 7, 10, 3, 4, 11];
    const TWO: [u32; 54] = [
        2, 5, 6, 14, 44, 54, 2, 0, 0, 5, 1, 0, 0, 5, 5, 1, 2, 0, 0, 0, 1, 1, 2, 0, 2, 110, 2, 1, 2, 0, 1, 0, 3, 1, 1, 0, 1, 0, 4, 2, 2, 0, 0, 0, 11, 3, 5, 8,
        9, 10, 2, 4, 6, 7,
    ];

    #[test]
    fn two_walks() {
        assert_eq!(compare(&ONE, &TWO, 10), Ok([3, 1, 1, 2]));
        assert_eq!(compare(&ONE, &TWO, 9), Ok([3, 0, 1, 2]));
        assert_eq!(compare(&TWO, &ONE, u32::MAX), Ok([3, 1, 2, 1]));
    }

    #[test]
    fn the_first_has_its_turn_before() {
        let mut bad = ONE;
        bad[6] = 0;
        assert_eq!(compare(&bad, &[], 0), Err(108));
        assert_eq!(compare(&TWO, &bad, 0), Err(110));
        assert_eq!(compare(&[], &bad, 0), Err(105));
    }
}
