//! The program chartrun: bytes in, bytes out; what chartresume has of it.

use crate::machine::{Call, Capacities};
use crate::run::{Case, Outcome};
use std::fmt::Write;

pub const CAPACITIES: Capacities = Capacities { vertices: 200, edges: 800, changes: 1_000 };
/// REFERENCE 11.1.
pub const ROWS: [u64; 5] = [0, 0, 1 << 1, 1 << 1, 0];
pub const BYTES: usize = 60_000;
pub const LINES: usize = 1_000;

/// What chartrun writes for these bytes.
pub fn chartrun(input: &[u8]) -> Vec<u8> {
    match calls(input) {
        Err(line) => unreadable(line),
        Ok(calls) => output(&Case::new(CAPACITIES, &ROWS, &calls).run()),
    }
}

pub fn unreadable(line: usize) -> Vec<u8> {
    format!("unreadable {line}\n").into_bytes()
}

/// The answers and the image, or why the start does not load.
pub fn output(outcome: &Outcome) -> Vec<u8> {
    let mut out = String::new();
    match outcome {
        Outcome::Refused(105, _) => out.push_str("refused 105\n"),
        Outcome::Refused(code, offset) => writeln!(out, "refused {code} {offset}").unwrap(),
        Outcome::Done { answers, image } => {
            for answer in answers.chunks(2) {
                match answer[0] {
                    0 => writeln!(out, "done {}", answer[1]).unwrap(),
                    code => writeln!(out, "refused {code}").unwrap(),
                }
            }
            out.push_str("image");
            for word in image {
                write!(out, " {word}").unwrap();
            }
            out.push('\n');
        }
    }
    out.into_bytes()
}

/// The calls, or the number to be written after `unreadable`.
pub fn calls(input: &[u8]) -> Result<Vec<Call>, usize> {
    if input.len() > BYTES {
        return Err(0);
    }
    let mut lines: Vec<&[u8]> = input.split(|b| *b == b'\n').collect();
    let rest = lines.pop().unwrap();
    let all = lines.len() + !rest.is_empty() as usize;
    if all > LINES {
        return Err(LINES + 1);
    }
    let mut calls = Vec::new();
    for (i, line) in lines.iter().enumerate() {
        calls.push(call(line).ok_or(i + 1)?);
    }
    if !rest.is_empty() {
        return Err(all);
    }
    Ok(calls)
}

fn call(line: &[u8]) -> Option<Call> {
    let numbers: Option<Vec<u32>> = line.split(|b| *b == b' ').map(number).collect();
    numbers?.try_into().ok()
}

/// Digits without leading zeros, at most 32 bits.
pub fn number(digits: &[u8]) -> Option<u32> {
    if digits.is_empty() || !digits.iter().all(u8::is_ascii_digit) || (digits[0] == b'0' && digits.len() > 1) {
        return None;
    }
    std::str::from_utf8(digits).unwrap().parse().ok()
}
