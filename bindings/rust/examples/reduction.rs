//! A list of 200 calls whose last is refused (examples/reduction.calls), and the least list that is refused alike.

use futtockfig::{answers, image_words, reduce, run, Lent, EMPTY};

const VERTICES: usize = 20;
const EDGES: usize = 40;
const CHANGES: usize = 200;

fn main() -> Result<(), String> {
    let text = include_str!("../../../examples/reduction.calls");
    let calls: Vec<u32> = text.split_whitespace().map(|word| word.parse().expect("a number")).collect();
    let (mut vertices, mut edges, mut journal) = ([0; 8 * VERTICES], [0; 12 * EDGES], [0; 12 * CHANGES]);
    let mut answer_words = vec![0; calls.len() / 5 * 2];
    let mut image = [0; image_words(VERTICES, EDGES)];
    let mut list = vec![0; calls.len()];
    let lent = Lent { vertices: &mut vertices, edges: &mut edges, journal: &mut journal, answers: &mut answer_words, image: &mut image };
    let reduced = reduce(&EMPTY, &[0], &calls, lent, &mut list).map_err(|refused| refused.to_string())?;
    println!("{} calls, {} kept, {} lists run", calls.len() / 5, reduced.calls.len() / 5, reduced.runs);
    let lent = Lent { vertices: &mut vertices, edges: &mut edges, journal: &mut journal, answers: &mut answer_words, image: &mut image };
    let done = run(&EMPTY, &[0], reduced.calls, lent).map_err(|refused| refused.to_string())?;
    for (call, answer) in reduced.calls.chunks(5).zip(answers(done.answers)) {
        let came = answer.map_or_else(|code| format!("refused {code}"), |number| format!("done {number}"));
        println!("{} {} {} {} {}: {came}", call[0], call[1], call[2], call[3], call[4]);
    }
    Ok(())
}
