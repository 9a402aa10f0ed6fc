//! Cases as text, run on the plain machine: what the program `vectors` must write for them.
//! tests/README.md describes the text.

use crate::comparison;
use crate::image;
use crate::order::{Items, Order};
use crate::page;
use crate::run::{Case, Outcome};
use std::fmt::{Display, Write};

/// What is written for a text of cases, or the number of the first line that is none.
pub fn written(text: &str) -> Result<String, usize> {
    Ok(read(text)?.0)
}

/// The runs of a text of cases, or the number of the first line that is none.
pub fn runs(text: &str) -> Result<Vec<Case>, usize> {
    Ok(read(text)?.1)
}

fn read(text: &str) -> Result<(String, Vec<Case>), usize> {
    let mut case = Case { start: vec![], rows: vec![], calls: vec![], vertices: 0, edges: 0, journal: 0, answers: 0, image: 0 };
    let mut last = Vec::new();
    let mut out = String::new();
    let mut runs = Vec::new();
    for (i, line) in text.lines().enumerate() {
        take(line, &mut case, &mut last, &mut out, &mut runs).ok_or(i + 1)?;
    }
    Ok((out, runs))
}

/// A run as such a text: what a difference is printed as, and what the files of vectors/ hold.
pub fn told(case: &Case) -> String {
    let mut out = String::new();
    show(&mut out, "tables", &[case.vertices, case.edges, case.journal]);
    show(&mut out, "lent", &[case.answers, case.image]);
    show(&mut out, "rows", &case.rows);
    show(&mut out, "start", &case.start);
    let calls = case.calls.chunks_exact(5);
    let rest = calls.remainder();
    for call in calls {
        show(&mut out, "call", call);
    }
    if !rest.is_empty() {
        show(&mut out, "words", rest);
    }
    out.push_str("run\n");
    out
}

fn take(line: &str, case: &mut Case, last: &mut Vec<u32>, out: &mut String, runs: &mut Vec<Case>) -> Option<()> {
    if line.is_empty() || line.starts_with('#') {
        writeln!(out, "{line}").unwrap();
        return Some(());
    }
    let (name, rest) = line.split_once(' ').unwrap_or((line, ""));
    match name {
        "tables" => [case.vertices, case.edges, case.journal] = numbers(rest)?.try_into().ok()?,
        "lent" => [case.answers, case.image] = numbers(rest)?.try_into().ok()?,
        // What the slices hold before a run changes nothing.
        "junk" => {
            let [_]: [u32; 1] = numbers(rest)?.try_into().ok()?;
        }
        "rows" => case.rows = numbers(rest)?,
        "start" => case.start = numbers(rest)?,
        "last" => case.start = last.clone(),
        "call" => case.calls.extend(calls(rest)?),
        "words" => case.calls.extend(numbers::<u32>(rest)?),
        "part" => {
            let [which]: [u32; 1] = numbers(rest)?.try_into().ok()?;
            let (from, len) = image::part(&case.start, which).unwrap_or((0, 0));
            show(out, &format!("part {which}:"), &case.start[from..from + len]);
        }
        "page" => {
            let [room]: [usize; 1] = numbers(rest)?.try_into().ok()?;
            match page::page(&case.start, room) {
                Err((code, number)) => show(out, "page", &[code as usize, number]),
                Ok(rows) => {
                    show(out, "page", &[0, rows.len()]);
                    out.push_str(&String::from_utf8(rows).unwrap());
                }
            }
            out.push_str("kept\n");
        }
        "compare" => {
            let words: Vec<u32> = numbers(rest)?;
            let (tolerance, second) = words.split_first()?;
            match comparison::compare(&case.start, second, *tolerance) {
                Err(code) => show(out, "compare", &[code, 0, 0, 0, 0]),
                Ok([matched, agreeing, first, second]) => show(out, "compare", &[0, matched, agreeing, first, second]),
            }
        }
        "arrange" => {
            let given: Vec<u32> = numbers(rest)?;
            let [kind, vertex, room, wanted @ ..] = &given[..] else { return None };
            let items = match kind {
                12 => Items::Vertices,
                14 => Items::Edges,
                16 => Items::List(*vertex),
                _ => return None,
            };
            let calls = Order { words: case.start.clone(), items, wanted: wanted.to_vec(), room: *room as usize }.calls();
            show(out, "arrange", &calls.as_ref().map_or_else(|code| [*code as usize, 0], |calls| [0, calls.len() / 5]));
            for call in calls.unwrap_or_default().chunks(5) {
                show(out, "call", call);
            }
            out.push_str("kept\n");
        }
        "run" => {
            case.calls.extend(calls(rest)?);
            *last = report(case, out);
            runs.push(case.clone());
            case.calls.clear();
        }
        _ => return None,
    }
    Some(())
}

fn numbers<T: std::str::FromStr>(text: &str) -> Option<Vec<T>> {
    text.split_whitespace().map(|word| word.parse().ok()).collect()
}

/// Calls with commas between, each of one to five words; those left out are 0.
fn calls(text: &str) -> Option<Vec<u32>> {
    let mut words = Vec::new();
    for call in text.split(',').filter(|_| !text.trim().is_empty()) {
        let mut call: Vec<u32> = numbers(call)?;
        if call.is_empty() || call.len() > 5 {
            return None;
        }
        call.resize(5, 0);
        words.extend(call);
    }
    Some(words)
}

/// Writes the result and returns the words of the end image.
fn report(case: &Case, out: &mut String) -> Vec<u32> {
    let image = match case.run() {
        Outcome::Refused(code, number) => {
            show(out, "result", &[code as usize, number, 0]);
            vec![]
        }
        Outcome::Done { answers, image } => {
            show(out, "result", &[0, answers.len() / 2, image.len()]);
            for (call, answer) in case.calls.chunks(5).zip(answers.chunks(2)) {
                show_open(out, "call", call);
                show(out, ":", answer);
            }
            show(out, "image", &image);
            image
        }
    };
    out.push_str("kept\n");
    image
}

fn show_open<T: Display>(out: &mut String, name: &str, words: &[T]) {
    out.push_str(name);
    for word in words {
        write!(out, " {word}").unwrap();
    }
}

fn show<T: Display>(out: &mut String, name: &str, words: &[T]) {
    show_open(out, name, words);
    out.push('\n');
}

#[cfg(test)]
mod tests {
    use super::{runs, told, written};

    #[test]
    fn told_and_read_again() {
        for seed in 420..470 {
            let case = crate::gen::case(seed);
            assert_eq!(runs(&told(&case)), Ok(vec![case]));
        }
    }

    #[test]
    fn two_images() {
        let text = "start 0 0 6 6 6 6\ncompare 9 0 0 6 6 6 6\ncompare 9\nstart 1\ncompare 0 1\n";
        assert_eq!(written(text).as_deref(), Ok("compare 0 0 0 0 0\ncompare 110 0 0 0 0\ncompare 105 0 0 0 0\n"));
        assert_eq!(written("compare\n"), Err(1));
    }

    #[test]
    fn a_list_and_a_part() {
        let text = "# one vertex\ntables 8 12 12\nlent 4 18\nrows 0\nstart 0 0 6 6 6 6\nrun 1 1 0 9, 30\nlast\npart 1\nwords 30 0\nrun\n";
        let wanted =
            "# one vertex\nresult 0 2 10\ncall 1 1 0 9 0: 0 1\ncall 30 0 0 0 0: 0 1\nimage 1 0 6 10 10 10 1 0 9 0\nkept\npart 1: 1 0 9 0\nresult 101 0 0\nkept\n";
        assert_eq!(written(text).as_deref(), Ok(wanted));
        assert_eq!(written("run\nrum\n"), Err(2));
        assert_eq!(written("run 1,,2\n"), Err(1));
    }
}
