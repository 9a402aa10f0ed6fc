//! The program chartresume: bytes in, bytes out.

use crate::page;
use crate::run::Case;
use crate::text::{calls, output, unreadable, CAPACITIES, ROWS};

/// What chartresume writes for these bytes.
pub fn chartresume(input: &[u8]) -> Vec<u8> {
    let end = input.iter().position(|b| *b == b'\n').map_or(input.len(), |at| at + 1);
    let (line, lines) = input.split_at(end);
    let Some(start) = page::words(line) else { return unreadable(1) };
    match calls(lines) {
        Err(0) => unreadable(0),
        Err(line) => unreadable(line + 1),
        Ok(calls) => output(&Case { start, ..Case::new(CAPACITIES, &ROWS, &calls) }.run()),
    }
}

#[cfg(test)]
mod tests {
    use super::chartresume;

    const LINE: &str = "image 1 0 6 10 10 10 1 0 7 0\n";

    fn writes(input: &str, wanted: &str) {
        assert_eq!(String::from_utf8(chartresume(input.as_bytes())).unwrap(), wanted, "{input:?}");
    }

    #[test]
    fn goes_on() {
        writes(LINE, LINE);
        writes("image 1 0 6 9 9 9 1 0 7\n", LINE);
        writes(&format!("{LINE}19 0 0 0 0\n7 1 8 0 0\n19 0 0 0 0\n42 1 0 0 0\n"), &format!("refused 14\ndone 1\ndone 1\ndone 7\n{LINE}"));
    }

    #[test]
    fn refused() {
        writes("image\n", "refused 105\n");
        writes("image\n22 0 0 0 0\n", "refused 105\n");
        writes("image 1 0 6 10 10 10 201 0 7 0\n", "refused 108 6\n");
        writes("image 1 0 6 10 10 10 1 5 7 0\n", "refused 108 7\n");
        writes("image 1 1 6 10 16 18 1 0 0 2 1 1 1 0 0 0 2 2\n", "refused 109 17\n");
    }

    #[test]
    fn unreadable() {
        for text in ["", "\n", "22 0 0 0 0\n", "image 1 0 6 10 10 10 1 0 7 0", "image \n22 0 0 0 0\n", "x\ny\n"] {
            writes(text, "unreadable 1\n");
        }
        writes(&format!("{LINE}\n"), "unreadable 2\n");
        writes(&format!("{LINE}22 0 0 0 0"), "unreadable 2\n");
        writes(&format!("{LINE}22 0 0 0 0\n{LINE}"), "unreadable 3\n");
        writes("image\nx\n", "unreadable 2\n");
        writes(&format!("{LINE}{}", "50 0 0 0 0\n".repeat(1_001)), "unreadable 1002\n");
        writes(&format!("{LINE}{}", "1".repeat(60_001)), "unreadable 0\n");
    }
}
