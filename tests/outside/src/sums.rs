//! Kind 59 over all benches against kind 49, at every point of a list.

use crate::machine::LAST_BENCH;
use crate::run::Case;

/// Calls that are added at a point: the distance of two marks, and their steps by each bench.
const ADDED: usize = 2 + LAST_BENCH as usize;

/// The list with kind 49 of two standing marks after each call, and kind 59 of them for each bench; the marks take turns.
/// `None` where the list is refused.
pub fn woven(case: &Case) -> Option<Case> {
    let mut machine = case.machine().ok()?;
    let mut calls = Vec::new();
    for (i, call) in case.calls.chunks(5).enumerate() {
        machine.call(call.try_into().unwrap());
        calls.extend(call);
        let marks: Vec<u32> = machine.marks.keys().copied().collect();
        let n = marks.len();
        // Without marks all of them are refused, by one code.
        let (a, b) = if n == 0 { (1, 2) } else { (marks[i % n], marks[i / n % n]) };
        calls.extend([49, a, b, 0, 0]);
        calls.extend((0..=LAST_BENCH).flat_map(|bench| [59, a, b, bench, 0]));
    }
    Some(Case { answers: 2 * (calls.len() / 5), calls, ..case.clone() })
}

/// Whether the answers to a woven list have each sum right; the points at which two marks stood.
pub fn agree(answers: &[u32]) -> Result<usize, String> {
    let mut points = 0;
    for (i, at) in answers.chunks(2 * (1 + ADDED)).enumerate() {
        let codes = at[2..].iter().step_by(2).copied();
        let numbers: Vec<u32> = at[3..].iter().step_by(2).copied().collect();
        if codes.clone().any(|code| code != at[2]) {
            return Err(format!("after call {i}: kinds 49 and 59 have different codes"));
        }
        if numbers[1..].iter().sum::<u32>() != numbers[0] {
            return Err(format!("after call {i}: the steps of all benches are not those between the marks"));
        }
        points += (at[2] == 0) as usize;
    }
    Ok(points)
}
