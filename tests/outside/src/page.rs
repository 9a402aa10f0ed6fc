//! The page of an image, and the program chartpage: bytes in, bytes out.

use crate::image;
use crate::machine::{Capacities, Edge, Reading};
use crate::text::number;

/// What every page's words are held against.
pub const CAPACITIES: Capacities = Capacities { vertices: 1_000, edges: 4_000, changes: 1 };
pub const TYPES: u32 = 64;
/// Bytes a row.
pub const ROW: usize = 25;
/// The most bytes that chartpage reads.
pub const BYTES: usize = 400_000;

/// The rows that a page of so many bytes begins with, or its code and the number beside it.
pub fn page(words: &[u32], room: usize) -> Result<Vec<u8>, (u32, usize)> {
    let Some(chart) = image::load(words, CAPACITIES, TYPES) else {
        let bad = image::bad(words, CAPACITIES, TYPES).expect("something is bad in words that do not load");
        return Err((bad.code(), bad.number()));
    };
    if room < ROW * chart.edges.len() {
        return Err((107, 0));
    }
    Ok(chart.edges.iter().map(row).collect::<String>().into_bytes())
}

fn row(e: &Edge) -> String {
    let reading = match e.reading {
        Reading::Untested => "-".into(),
        Reading::Silent => "silent".into(),
        Reading::Heard(decimetres) => decimetres.to_string(),
    };
    format!("{:>4} {:>4} {:>4} {:>2} {reading:>6}\n", e.number, e.alpha, e.omega, e.ty)
}

/// What chartpage writes for these bytes.
pub fn chartpage(input: &[u8]) -> Vec<u8> {
    match words(input).map(|words| page(&words, usize::MAX)) {
        None => b"unreadable\n".to_vec(),
        Some(Err((105, _))) => b"refused 105\n".to_vec(),
        Some(Err((code, offset))) => format!("refused {code} {offset}\n").into_bytes(),
        Some(Ok(rows)) => rows,
    }
}

/// The words of the line that chartrun writes last, where the input is such a line and nothing else.
pub fn words(input: &[u8]) -> Option<Vec<u32>> {
    if input.len() > BYTES {
        return None;
    }
    let mut fields = input.strip_suffix(b"\n")?.split(|b| *b == b' ');
    if fields.next()? != b"image" {
        return None;
    }
    fields.map(number).collect()
}

/// The line of these words.
pub fn line(words: &[u32]) -> Vec<u8> {
    let numbers: String = words.iter().map(|word| format!(" {word}")).collect();
    format!("image{numbers}\n").into_bytes()
}

#[cfg(test)]
mod tests {
    use super::{chartpage, line, page};

    const ONE: [u32; 22] = [2, 1, 6, 14, 20, 22, 1, 0, 7, 1, 2, 0, 9, 1, 1, 1, 2, 0, 2, 450, 2, 3];
    const OLD: [u32; 20] = [2, 1, 6, 12, 18, 20, 1, 0, 7, 2, 0, 9, 1, 1, 2, 0, 2, 450, 2, 3];

    /// With another word at a place.
    fn with(at: usize, word: u32) -> [u32; 22] {
        let mut words = ONE;
        words[at] = word;
        words
    }

    #[test]
    fn one_row() {
        assert_eq!(page(&ONE, 25).unwrap(), b"   1    1    2  0    450\n");
        assert_eq!(page(&OLD, 25), page(&ONE, 25));
        assert_eq!(page(&ONE, 24), Err((107, 0)));
        assert_eq!(page(&ONE[1..], 0), Err((105, 0)));
        assert_eq!(page(&with(9, 2), 0), Err((108, 9)));
        assert_eq!(page(&with(17, 64), 0), Err((108, 17)));
        assert_eq!(page(&with(21, 2), 0), Err((109, 21)));
        assert_eq!(page(&[0, 0, 6, 6, 6, 6], 0), Ok(vec![]));
    }

    #[test]
    fn lines() {
        assert_eq!(chartpage(&line(&ONE)), b"   1    1    2  0    450\n");
        assert_eq!(chartpage(&line(&OLD)), b"   1    1    2  0    450\n");
        assert_eq!(chartpage(b"image 0 0 6 6 6 6\n"), b"");
        assert_eq!(chartpage(b"image\n"), b"refused 105\n");
        assert_eq!(chartpage(&line(&with(6, 1_001))), b"refused 108 6\n");
        assert_eq!(chartpage(&line(&with(13, 0))), b"refused 108 13\n");
        assert_eq!(chartpage(&line(&with(20, 3))), b"refused 109 20\n");
        for text in ["", "\n", "image", "image \n", " image\n", "image 1\n\n", "image 01\n", "image  1\n", "image 4294967296\n", "imagen 1\n"] {
            assert_eq!(chartpage(text.as_bytes()), b"unreadable\n", "{text:?}");
        }
    }
}
