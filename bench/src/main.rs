//! Times the engine, the same data structure by hand in C, and the plain machine on some loads.
//! Answers and images are compared before anything is timed.

mod loads;
mod programs;

use outside::comparison;
use outside::gen;
use outside::run::{Case, Outcome};
use outside::stores::{Ended, Several};
use programs::{futtockfig_compare, futtockfig_run, futtockfig_run_stores, now, Buffers, Run, RunStores, BY_HAND, BY_HAND_STORES};
use std::time::{Duration, Instant};

fn check(what: &str, same: bool) {
    if !same {
        println!("bench: {what}");
        std::process::exit(1);
    }
}

/// The C by hand answers as the plain machine does, and both programs alike on the whole loads.
fn compare(all: &[loads::Load]) {
    for seed in 0..500 {
        let case = gen::case(seed % 498);
        let plain = case.run();
        for by_hand in BY_HAND {
            check(&format!("the C by hand differs from the plain machine at seed {seed}"), Buffers::new(&case).outcome(by_hand, &case) == plain);
        }
    }
    for load in all {
        let mut buffers = Buffers::new(&load.short);
        let plain = load.short.run();
        for by_hand in BY_HAND {
            check(&format!("{}: the C by hand differs from the plain machine", load.name), buffers.outcome(by_hand, &load.short) == plain);
        }
        check(&format!("{}: the engine differs from the plain machine", load.name), buffers.outcome(futtockfig_run, &load.short) == plain);
        let mut buffers = Buffers::new(&load.case);
        let by_hand = buffers.outcome(BY_HAND[0], &load.case);
        let accepted = matches!(&by_hand, Outcome::Done { answers, .. } if answers.chunks(2).all(|a| a[0] == 0));
        check(&format!("{}: a call was refused", load.name), accepted);
        for program in [BY_HAND[1], futtockfig_run] {
            check(&format!("{}: the engine or one C by hand differs from the other", load.name), buffers.outcome(program, &load.case) == by_hand);
        }
    }
}

/// The same of several stores.
fn compare_stores(all: &[loads::Shared]) {
    for seed in 0..500 {
        let several = gen::several(seed % 498);
        let plain = several.run();
        for by_hand in BY_HAND_STORES {
            let same = Buffers::new(&several.case).ended(by_hand, &several) == plain;
            check(&format!("the C by hand differs from the plain machines at seed {seed}"), same);
        }
    }
    for load in all {
        let mut buffers = Buffers::new(&load.short.case);
        let plain = load.short.run();
        for by_hand in BY_HAND_STORES {
            check(&format!("{}: the C by hand differs from the plain machines", load.name), buffers.ended(by_hand, &load.short) == plain);
        }
        check(&format!("{}: the engine differs from the plain machines", load.name), buffers.ended(futtockfig_run_stores, &load.short) == plain);
        let mut buffers = Buffers::new(&load.several.case);
        let by_hand = buffers.ended(BY_HAND_STORES[0], &load.several);
        let accepted = matches!(&by_hand, Ended::Done { answers, .. } if answers.chunks(2).all(|a| a[0] == 0));
        check(&format!("{}: a call was refused", load.name), accepted);
        for program in [BY_HAND_STORES[1], futtockfig_run_stores] {
            check(&format!("{}: the engine or one C by hand differs from the other", load.name), buffers.ended(program, &load.several) == by_hand);
        }
    }
}

/// The best times of several stores, in µs: the C by gcc, by the kit's clang, and the engine.
fn best_stores(several: &Several, time: Duration) -> [f64; 3] {
    let mut buffers = Buffers::new(&several.case);
    let mut best = [Duration::MAX; 3];
    let programs: [RunStores; 3] = [BY_HAND_STORES[0], BY_HAND_STORES[1], futtockfig_run_stores];
    let begun = Instant::now();
    let mut rounds = 0;
    while rounds < 5 || begun.elapsed() < time {
        for (i, program) in programs.into_iter().enumerate() {
            best[i] = best[i].min(buffers.serve(program, several).1);
        }
        rounds += 1;
    }
    best.map(micros)
}

/// Several stores: every load by the entry of several with one store, beside the other entry, then eight stores.
fn several_stores(all: &[loads::Load], time: Duration) {
    let one: Vec<loads::Shared> = all.iter().map(loads::alone).collect();
    let eight = loads::eight();
    compare_stores(&one);
    compare_stores(&eight);
    println!();
    println!("One store by both entries:");
    println!();
    println!("| load | engine, five words, µs | six words, µs | six ÷ five | C by hand, six words, µs |");
    println!("|---|---|---|---|---|");
    for (load, shared) in all.iter().zip(&one) {
        let five = micros(best(&load.case, &[futtockfig_run], time)[0]);
        let [gcc, clang, six] = best_stores(&shared.several, time);
        println!("| {} | {five:.1} | {six:.1} | {:.2} | {:.1} |", load.name, six / five, gcc.min(clang));
    }
    println!();
    println!("Eight stores in the same tables, 125 vertices and 500 edges each, limit 20,000:");
    println!();
    println!("| load | C by gcc, µs | C by clang, µs | engine, µs | engine ÷ better C |");
    println!("|---|---|---|---|---|");
    for load in &eight {
        let [gcc, clang, engine] = best_stores(&load.several, time);
        println!("| {} | {gcc:.1} | {clang:.1} | {engine:.1} | {:.2} |", load.name, engine / gcc.min(clang));
    }
}

/// The best time of each program over rounds in turn.
fn best(case: &Case, programs: &[Run], time: Duration) -> Vec<Duration> {
    let mut buffers = Buffers::new(case);
    let mut best = vec![Duration::MAX; programs.len()];
    let begun = Instant::now();
    let mut rounds = 0;
    while rounds < 5 || begun.elapsed() < time {
        for (i, program) in programs.iter().enumerate() {
            best[i] = best[i].min(buffers.run(*program, case).1);
        }
        rounds += 1;
    }
    best
}

/// The best times in µs: the C by gcc, by the kit's clang, and the engine.
fn sides(case: &Case, time: Duration) -> [f64; 3] {
    let times = best(case, &[BY_HAND[0], BY_HAND[1], futtockfig_run], time);
    [times[0], times[1], times[2]].map(micros)
}

fn micros(time: Duration) -> f64 {
    time.as_nanos() as f64 / 1_000.0
}

/// A load as a file for bench/count.c: eight lengths of 64 bits (start, rows, calls, vertices, edges, journal, answers,
/// image), the number of stores, 0 for a call of five words, and the limit; then the words of start, rows and calls.
fn save(case: &Case, stores: u32, limit: u32, path: &str) {
    let lengths = [case.start.len(), case.rows.len(), case.calls.len(), case.vertices, case.edges, case.journal, case.answers, case.image];
    let lengths = lengths.into_iter().chain([stores as usize, limit as usize]).collect::<Vec<_>>();
    let mut bytes: Vec<u8> = lengths.iter().flat_map(|n| (*n as u64).to_le_bytes()).collect();
    bytes.extend(case.start.iter().flat_map(|w| w.to_le_bytes()));
    bytes.extend(case.rows.iter().flat_map(|w| w.to_le_bytes()));
    bytes.extend(case.calls.iter().flat_map(|w| w.to_le_bytes()));
    std::fs::write(path, bytes).expect("a file for the load");
}

fn main() {
    let words: Vec<String> = std::env::args().skip(1).collect();
    if words.first().is_some_and(|w| w == "--save") {
        for (i, load) in loads::all().iter().enumerate() {
            save(&load.case, 0, 0, &format!("{}/{i}.load", words[1]));
            println!("{}", load.name);
        }
        return;
    }
    if words.first().is_some_and(|w| w == "--save-stores") {
        let one = loads::all().into_iter().map(|load| loads::alone(&load));
        for (i, load) in one.chain(loads::eight()).enumerate() {
            save(&load.several.case, load.several.stores, load.several.limit, &format!("{}/{i}.stores", words[1]));
            println!("{}", load.name);
        }
        return;
    }
    if words.first().is_some_and(|w| w == "--save-growth") {
        for (i, load) in loads::growing().iter().flatten().enumerate() {
            save(&load.case, 0, 0, &format!("{}/{i}.growth", words[1]));
            println!("{} {}", load.case.vertices / 8, load.case.calls.len() / 5);
        }
        return;
    }
    let seconds: u64 = std::env::args().nth(1).map_or(4, |s| s.parse().expect("seconds a load"));
    let all = loads::all();
    compare(&all);
    println!("1,000 vertices, 4,000 edges, room for 20,000 changes. Best of alternating runs over {seconds} s a load, processor time.");
    println!("Every run loads the start image and saves the end image. Both programs are lent the same buffers in turn;");
    println!("buffers are not cleared between runs. The plain machine runs a shorter list of the same load, best of 3;");
    println!("its ratio is against the C by hand on that list.");
    println!();
    println!("| load | C by gcc, µs | C by clang, µs | engine, µs | engine ÷ better C | plain machine ÷ C |");
    println!("|---|---|---|---|---|---|");
    for load in &all {
        let [gcc, clang, engine] = sides(&load.case, Duration::from_secs(seconds));
        let short = best(&load.short, &BY_HAND[..1], Duration::from_millis(300))[0];
        let plain = (0..3)
            .map(|_| {
                let begun = now();
                std::hint::black_box(load.short.run());
                now() - begun
            })
            .min()
            .unwrap();
        let ratio = engine / gcc.min(clang);
        println!("| {} | {gcc:.1} | {clang:.1} | {engine:.1} | {ratio:.2} | {:.0} |", load.name, micros(plain) / micros(short));
    }
    check_alone(&all, Duration::from_secs(seconds));
    two_images(&all, Duration::from_secs(seconds));
    several_stores(&all, Duration::from_secs(seconds));
    growth(Duration::from_secs(seconds));
}

/// The time of an edit in graphs and lists of several sizes: that of the list less that of a list with no call, by its
/// length. Lists of 100 calls are for bench/count: their time is lost in that of load and save.
fn growth(time: Duration) {
    println!();
    println!("Time of an edit without load and save, ns, C by hand and engine:");
    println!();
    println!("| vertices | edges | 1,000 calls | 20,000 calls |");
    println!("|---|---|---|---|");
    for lists in loads::growing() {
        compare(&lists);
        let times: Vec<[f64; 3]> = lists.iter().map(|l| sides(&l.case, time)).collect();
        let vertices = lists[0].case.vertices / 8;
        print!("| {vertices} | {} |", 4 * vertices);
        for (load, with) in lists.iter().zip(&times).skip(2) {
            let each = |i: usize| (with[i] - times[0][i]) * 5_000.0 / load.case.calls.len() as f64;
            print!(" {:.1}, {:.1} |", each(0).min(each(1)), each(2));
        }
        println!();
    }
}

/// The check of a full image by itself: a run that is lent one word too few for the end image ends with code 106, which
/// is tested last, and does nothing else.
fn check_alone(all: &[loads::Load], time: Duration) {
    let mut case = all.last().expect("a load").case.clone();
    case.image -= 1;
    check("one word too few is not 106", Buffers::new(&case).outcome(futtockfig_run, &case) == Outcome::Refused(106, 0));
    let [gcc, clang, engine] = sides(&case, time);
    println!();
    println!("The check of a full image alone (a run refused with 106): C by hand {:.1} µs, engine {engine:.1} µs.", gcc.min(clang));
}

/// Two full images beside each other: the start and the end of the first load, its edits.
fn two_images(all: &[loads::Load], time: Duration) {
    let case = &all[0].case;
    let Outcome::Done { image, .. } = Buffers::new(case).outcome(futtockfig_run, case) else { unreachable!("the edits are accepted") };
    // SAFETY: each pointer is to a slice of the given length.
    let compared = || unsafe { futtockfig_compare(case.start.as_ptr(), case.start.len(), image.as_ptr(), image.len(), 10) };
    let [code, counts @ ..] = compared().0;
    check("two images are not what the plain comparison says", code == 0 && comparison::compare(&case.start, &image, 10) == Ok(counts));
    let mut best = Duration::MAX;
    let begun = Instant::now();
    let mut rounds = 0;
    while rounds < 5 || begun.elapsed() < time {
        let from = now();
        std::hint::black_box(compared());
        best = best.min(now() - from);
        rounds += 1;
    }
    println!();
    println!("Two full images compared: engine {:.1} µs.", micros(best));
}
