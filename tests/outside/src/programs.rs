//! The programs chartrun, chartresume and chartpage: what they write for texts, against what the plain machine writes, and
//! chartresume against chartrun.

use crate::fail;
use outside::{examples, gen, page, resume, text};
use std::io::Write;
use std::ops::Range;
use std::process::{Command, Stdio};
use std::time::Duration;

/// A text with its name; in pieces where the program is to be kept waiting.
struct Text {
    name: String,
    input: Vec<u8>,
    slow: bool,
}

impl Text {
    fn new(name: impl Into<String>, input: impl Into<Vec<u8>>) -> Text {
        Text { name: name.into(), input: input.into(), slow: false }
    }

    fn slow(name: &str, input: impl Into<Vec<u8>>) -> Text {
        Text { slow: true, ..Text::new(name, input) }
    }
}

/// Runs chartrun on the example, texts at its limits and one text a seed; how many there were.
pub fn run_chartrun(program: &str, seeds: Range<u64>) -> usize {
    let mut texts = vec![Text::new("the example of REFERENCE 11.5", examples::TEXT)];
    texts.extend(limits().into_iter().map(|(name, input)| Text::new(name, input)));
    texts.push(Text::slow("in pieces", examples::TEXT));
    texts.push(Text::slow("1,000 lines in pieces", b"50 0 0 0 0\n".repeat(1_000)));
    texts.extend(seeds.map(|seed| Text::new(format!("seed {seed}"), gen::text(seed))));
    check(program, "chartrun", &texts, text::chartrun)
}

/// The same for chartpage.
pub fn run_chartpage(program: &str, seeds: Range<u64>) -> usize {
    let mut texts: Vec<Text> = page_limits().into_iter().map(|(name, input)| Text::new(name, input)).collect();
    texts.push(Text::slow("in pieces", page::line(&gen::page(499).0)));
    texts.extend(seeds.map(|seed| Text::new(format!("seed {seed}"), gen::image_text(seed))));
    check(program, "chartpage", &texts, page::chartpage)
}

/// The same for chartresume.
pub fn run_chartresume(program: &str, seeds: Range<u64>) -> usize {
    let mut texts: Vec<Text> = resume_limits().into_iter().map(|(name, input)| Text::new(name, input)).collect();
    texts.push(Text::slow("in pieces", [page::line(&gen::page(499).0), b"50 0 0 0 0\n".repeat(1_000)].concat()));
    texts.extend(seeds.map(|seed| Text::new(format!("seed {seed}"), gen::resume_text(seed))));
    check(program, "chartresume", &texts, resume::chartresume)
}

/// REFERENCE 11.12, chartresume against chartrun: it goes on from chartrun's last line as chartrun goes on behind a commit, at
/// bench 0. Two lists a seed; how many there were.
pub fn run_goes_on(chartresume: &str, chartrun: &str, seeds: Range<u64>) -> usize {
    const COMMIT: &[u8] = b"22 0 0 0 0\n";
    const BENCH: &[u8] = b"58 0 0 0 0\n";
    let mut lists = 0;
    for seed in seeds {
        let (first, second, at_bench_0) = gen::two_lists(seed);
        let tonight = piped(chartrun, first.clone(), false);
        let (answers, line) = tonight.split_at(tonight[..tonight.len() - 1].iter().rposition(|b| *b == b'\n').map_or(0, |at| at + 1));
        let resumed = piped(chartresume, [line, &second].concat(), false);
        for between in [&[BENCH, COMMIT].concat(), COMMIT].into_iter().take(1 + at_bench_0 as usize) {
            let whole = piped(chartrun, [&first, between, &second].concat(), false);
            let calls = between.iter().filter(|b| **b == b'\n').count();
            let behind = whole.strip_prefix(answers).map(|rest| rest.splitn(calls + 1, |b| *b == b'\n').last().unwrap());
            if behind != Some(&resumed[..]) {
                fail(format!("seed {seed}: chartresume does not go on as chartrun does behind {:?}", String::from_utf8_lossy(between)));
            }
            lists += 1;
        }
    }
    lists
}

fn check(program: &str, title: &str, texts: &[Text], wanted: impl Fn(&[u8]) -> Vec<u8>) -> usize {
    for Text { name, input, slow } in texts {
        let wanted = wanted(input);
        let found = piped(program, input.clone(), *slow);
        if found != wanted {
            let head = |bytes: &[u8]| String::from_utf8_lossy(&bytes[..bytes.len().min(400)]).into_owned();
            fail(format!("{title}, {name}:\nwrote  {:?}\nshould {:?}\ninput  {:?}", head(&found), head(&wanted), head(input)));
        }
    }
    texts.len()
}

/// Texts at the limits of chartpage: words, digits, spaces and newlines, and the most bytes.
fn page_limits() -> Vec<(&'static str, Vec<u8>)> {
    let filled = |front: &str, len: usize, filler: &str, end: &str| {
        let count = (len - front.len() - end.len()) / filler.len();
        (front.to_string() + &filler.repeat(count) + end).into_bytes()
    };
    let mut texts: Vec<(&str, Vec<u8>)> = vec![
        ("no edges", page::line(&[0, 0, 6, 6, 6, 6])),
        ("the largest words", page::line(&[u32::MAX; 20])),
        ("a bad record", page::line(&[1, 0, 6, 10, 10, 10, 1, 64, 0, 0])),
        ("a bad degree", page::line(&[1, 0, 6, 10, 10, 10, 1, 63, 0, 1])),
        ("a bad list", page::line(&[1, 1, 6, 10, 16, 18, 1, 0, 0, 2, 1, 1, 1, 0, 0, 0, 2, 2])),
        ("a bad old record", page::line(&[1, 0, 6, 9, 9, 9, 1, 64, 0])),
        ("a bad list of old words", page::line(&[1, 1, 6, 9, 15, 17, 1, 0, 0, 1, 1, 1, 0, 0, 0, 2, 2])),
        ("400,000 bytes", filled("image", 400_000, " 7", "7\n")),
        ("400,001 bytes", filled("image", 400_001, " 7", "\n")),
        ("399,998 digits", filled("image ", 400_000, "1", "\n")),
        ("400,000 newlines", vec![b'\n'; 400_000]),
        ("1,000,000 zero bytes", vec![0; 1_000_000]),
    ];
    let words = [
        "",
        "\n",
        "i",
        "image",
        "image\n",
        "image \n",
        "image 1",
        "image 1 \n",
        "image  1\n",
        " image 1\n",
        "image 1\n\n",
        "image 1\n ",
        "Image 1\n",
        "imag 1\n",
        "images 1\n",
        "image1\n",
        "image\t1\n",
        "image 1\r\n",
        "image 00\n",
        "image 0\n",
        "image 4294967295\n",
        "image 4294967296\n",
        "image -1\n",
        "image 1\nimage 1\n",
        "unreadable 0\n",
        "done 1\n",
    ];
    texts.extend(words.map(|text| (text, text.as_bytes().to_vec())));
    texts
}

/// Texts at the limits of chartresume: the image's line, the calls, and both together.
fn resume_limits() -> Vec<(String, Vec<u8>)> {
    let line = page::line(&[0, 0, 6, 6, 6, 6]);
    let long = |len: usize| ("image".to_string() + &" 7".repeat((len - 6) / 2) + "\n").into_bytes();
    let mut texts: Vec<(String, Vec<u8>)> = vec![
        ("400,000 bytes of image".into(), long(400_000)),
        ("400,002 bytes of image".into(), long(400_002)),
        ("a million bytes of image".into(), long(1_000_000)),
        ("a million bytes without a newline".into(), vec![b'7'; 1_000_000]),
        ("the most bytes".into(), [long(400_000), vec![b'1'; 60_000]].concat()),
        ("one byte more".into(), [long(400_000), vec![b'1'; 60_001]].concat()),
        ("a long image and too many bytes".into(), [long(400_002), vec![b'1'; 60_001]].concat()),
        ("a bad image and too many bytes".into(), [b"imagine\n".to_vec(), vec![b'1'; 500_000]].concat()),
        ("an image that does not load and a bad line".into(), b"image 1\nx\n".to_vec()),
        ("an image that does not load and calls".into(), b"image 1\n50 0 0 0 0\n".to_vec()),
    ];
    // Lines of images alone, and each text of chartrun behind one.
    texts.extend(page_limits().into_iter().map(|(name, input)| (format!("image alone: {name}"), input)));
    texts.extend(limits().into_iter().map(|(name, list)| (format!("behind an image: {name}"), [line.clone(), list].concat())));
    texts
}

/// Texts at the limits of bytes and lines.
fn limits() -> Vec<(&'static str, Vec<u8>)> {
    let line = b"50 0 0 0 0\n";
    let wide = b"4294967295 4294967295 4294967295 4294967295 4294967295\n";
    let filled = |len: usize, byte: u8| vec![byte; len];
    let mut ends_bare = line.repeat(1_000);
    ends_bare.extend(b"50 0 0 0 0");
    let mut bare_at_limit = line.repeat(999);
    bare_at_limit.extend(b"50 0 0 0 0");
    let mut bad_and_many = b"x\n".to_vec();
    bad_and_many.extend(line.repeat(1_000));
    let mut bad_and_long = b"x\n".to_vec();
    bad_and_long.resize(60_001, b'0');
    vec![
        ("nothing", vec![]),
        ("one newline", b"\n".to_vec()),
        ("1,000 lines", line.repeat(1_000)),
        ("1,000 wide lines", wide.repeat(1_000)),
        ("1,001 lines", line.repeat(1_001)),
        ("1,000 lines and a rest", ends_bare),
        ("999 lines and a rest", bare_at_limit),
        ("a bad line and too many lines", bad_and_many),
        ("a bad line and too many bytes", bad_and_long),
        ("60,000 digits", filled(60_000, b'1')),
        ("60,001 digits", filled(60_001, b'1')),
        ("60,000 newlines", filled(60_000, b'\n')),
        ("60,001 newlines", filled(60_001, b'\n')),
        ("200,000 zero bytes", filled(200_000, 0)),
    ]
}

fn piped(program: &str, input: Vec<u8>, slow: bool) -> Vec<u8> {
    let started = Command::new(program).stdin(Stdio::piped()).stdout(Stdio::piped()).spawn();
    let mut child = started.unwrap_or_else(|e| fail(format!("{program}: {e}")));
    let mut pipe = child.stdin.take().unwrap();
    let writer = std::thread::spawn(move || {
        // The program may stop reading when there are too many bytes.
        if !slow {
            return pipe.write_all(&input).is_ok();
        }
        input.chunks(input.len() / 20 + 1).all(|piece| {
            std::thread::sleep(Duration::from_millis(2));
            pipe.write_all(piece).is_ok()
        })
    });
    let output = child.wait_with_output().unwrap();
    writer.join().unwrap();
    if !output.status.success() {
        fail(format!("{program} ended with {}", output.status));
    }
    output.stdout
}
