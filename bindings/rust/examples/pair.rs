//! A pair comes in, its readings are taken, an aerial is swapped, and the pair goes back to the mark by its name.

use futtockfig::{answers, image_words, kind, name, part, run, Call, Lent, Part, EMPTY};

const VERTICES: usize = 10;
const EDGES: usize = 20;
const CHANGES: usize = 100;

fn main() -> Result<(), String> {
    let [first, second] = name("received").ok_or("a name has up to eight bytes")?;
    // Units 1 and 2, reading 1 from 1 to 2 and reading 2 back.
    let calls: [(&str, Call); 15] = [
        ("unit 1 comes in", [kind::CREATE_VERTEX, 1, 0, 0, 0]),
        ("unit 2 comes in", [kind::CREATE_VERTEX, 2, 0, 0, 0]),
        ("a reading from 1 to 2", [kind::CREATE_EDGE, 1, 1, 2, 0]),
        ("a reading from 2 to 1", [kind::CREATE_EDGE, 2, 2, 1, 0]),
        ("1 to 2 heard at 900 dm", [kind::SET_READING, 1, 2, 900, 0]),
        ("2 to 1 heard at 1,300 dm", [kind::SET_READING, 2, 2, 1_300, 0]),
        ("grade as received", [kind::GRADE, 1, 2, 0, 0]),
        ("mark 1", [kind::SET_MARK, 1, 0, 0, 0]),
        ("its name is received", [kind::NAME_MARK, 1, first, second, 0]),
        ("unit 1 has another aerial", [kind::SET_VALUE, 1, 1, 0, 0]),
        ("1 to 2 heard at 2,100 dm", [kind::SET_READING, 1, 2, 2_100, 0]),
        ("grade with that aerial", [kind::GRADE, 1, 2, 0, 0]),
        ("back to received", [kind::GO_TO_NAME, first, second, 0, 0]),
        ("grade again", [kind::GRADE, 1, 2, 0, 0]),
        ("a unit that is not there", [kind::VALUE, 3, 0, 0, 0]),
    ];
    let words: Vec<u32> = calls.iter().flat_map(|call| call.1).collect();
    let (mut vertices, mut edges, mut journal) = ([0; 8 * VERTICES], [0; 12 * EDGES], [0; 12 * CHANGES]);
    let mut answer_words = [0; 30];
    let mut image = [0; image_words(VERTICES, EDGES)];
    let lent = Lent { vertices: &mut vertices, edges: &mut edges, journal: &mut journal, answers: &mut answer_words, image: &mut image };
    let done = run(&EMPTY, &[0], &words, lent).map_err(|refused| refused.to_string())?;
    for ((what, _), answer) in calls.iter().zip(answers(done.answers)) {
        match answer {
            Ok(number) => println!("{what}: {number}"),
            Err(code) => println!("{what}: refused {code}"),
        }
    }
    println!("units {:?}", part(done.image, Part::Vertices));
    println!("readings {:?}", part(done.image, Part::Edges));
    Ok(())
}
