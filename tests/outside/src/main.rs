//! Compares the compiled engine with the plain machine.
//!
//!     outside --self [--seeds N] [--from K]     the generator and the plain machine alone
//!     outside [--seeds N] [--from K]            the engine (built with the feature `engine`)
//!             [--chartrun PATH]                 and the program chartrun
//!             [--chartresume PATH]              and the program chartresume, also against chartrun
//!             [--chartpage PATH]                and the program chartpage
//!             [--vectors DIR]                   and the cases kept in DIR
//!     outside --text                            chartrun on the plain machine: standard input to output
//!     outside --resume                          chartresume likewise
//!     outside --page                            chartpage likewise
//!     outside --cases FILE                      what the program vectors must write for the cases in FILE

use outside::cases;
use outside::comparison;
use outside::gen;
use outside::image;
use outside::machine::{is_change, Call, Capacities, Graph, Machine, Name, LAST_BENCH};
use outside::order::Order;
use outside::page;
use outside::reduction;
use outside::resume;
use outside::run::{Case, Outcome};
use outside::stores::{Ended, Several};
use outside::sums;
use outside::text;
use reached::Reached;
use std::collections::BTreeMap;
use std::io::{Read, Write};
use std::process::exit;
use std::time::Instant;

#[cfg(feature = "engine")]
mod programs;
mod reached;

struct Options {
    alone: bool,
    seeds: u64,
    from: u64,
    chartrun: Option<String>,
    chartresume: Option<String>,
    chartpage: Option<String>,
    vectors: Option<String>,
}

/// Seeds that take about a minute.
const SEEDS: u64 = 10_000;

/// One list in so many is reduced too.
const REDUCED: u64 = 5;

fn main() {
    let mut options = Options { alone: false, seeds: SEEDS, from: 0, chartrun: None, chartresume: None, chartpage: None, vectors: None };
    let mut args = std::env::args().skip(1);
    while let Some(arg) = args.next() {
        let mut value = || args.next().unwrap_or_else(|| usage());
        match arg.as_str() {
            "--self" => options.alone = true,
            "--seeds" => options.seeds = value().parse().unwrap_or_else(|_| usage()),
            "--from" => options.from = value().parse().unwrap_or_else(|_| usage()),
            "--chartrun" => options.chartrun = Some(value()),
            "--chartresume" => options.chartresume = Some(value()),
            "--chartpage" => options.chartpage = Some(value()),
            "--vectors" => options.vectors = Some(value()),
            "--text" => return filter(text::chartrun),
            "--resume" => return filter(resume::chartresume),
            "--page" => return filter(page::chartpage),
            "--cases" => {
                let file = value();
                let text = std::fs::read_to_string(&file).unwrap_or_else(|e| fail(format!("{file}: {e}")));
                match cases::written(&text) {
                    Ok(lines) => print!("{lines}"),
                    Err(line) => fail(format!("{file}: line {line} is none of a case")),
                }
                return;
            }
            _ => usage(),
        }
    }
    if options.alone {
        run_alone(&options);
    } else {
        compare::run(&options);
    }
}

/// A program on the plain machine: standard input to standard output.
fn filter(program: impl Fn(&[u8]) -> Vec<u8>) {
    let mut input = Vec::new();
    std::io::stdin().read_to_end(&mut input).unwrap();
    std::io::stdout().write_all(&program(&input)).unwrap();
}

fn usage() -> ! {
    eprintln!("usage: outside [--self] [--seeds N] [--from K] [--chartrun PATH] [--chartresume PATH] [--chartpage PATH] [--vectors DIR] | outside --text | outside --resume | outside --page | outside --cases FILE");
    exit(2)
}

fn fail(message: String) -> ! {
    println!("outside: {message}");
    exit(1)
}

/// The plain machine alone, held to REFERENCE 4.11, 4.12, 4.16 to 4.20 and, of several stores, 21.5 to 21.7 call by call.
fn run_alone(options: &Options) {
    let begun = Instant::now();
    let mut reached = Reached::default();
    for seed in options.from..options.from + options.seeds {
        let case = gen::case(seed);
        let outcome = case.run();
        reached.recording(&case.record(case.copies_room(seed)));
        if seed % REDUCED == 0 {
            let (case, room) = reduction::case(seed);
            reached.reduction(&case, &case.reduce(room));
        }
        if let Err(message) = demands(&case, &outcome, &mut reached) {
            fail(format!("seed {seed}: {message}"));
        }
        reached.add(&case, &outcome);
        if let Some((_, outcome)) = woven(seed, &case) {
            reached.points += sums_agree(seed, &outcome);
        }
        let words = gen::words(seed);
        let capacities = Capacities { vertices: 6, edges: 8, changes: 1 };
        judges(seed, &words, capacities, 3);
        for which in 0..5 {
            if let Some((from, len)) = image::part(&words, which) {
                assert!(from + len <= words.len());
            }
        }
        let (words, room) = gen::page(seed);
        judges(seed, &words, page::CAPACITIES, page::TYPES);
        reached.page(page::page(&words, room).err().map_or(0, |refused| refused.0));
        let (one, two, tolerance) = gen::pair(seed);
        let compared = comparison::compare(&one, &two, tolerance);
        reached.comparison(compared.err().unwrap_or(0));
        if let Ok([matched, agreeing, first, second]) = compared {
            // The other way round, and each image's edges.
            let turned = comparison::compare(&two, &one, tolerance) == Ok([matched, agreeing, second, first]);
            if !turned || agreeing > matched || (matched + first, matched + second) != (one[1], two[1]) {
                fail(format!("seed {seed}: two images disagree about {compared:?}"));
            }
        }
        let several = gen::several(seed);
        let ended = several.run();
        if let Err(message) = demands_of_each(&several, &ended, &mut reached) {
            fail(format!("seed {seed}: {message}\n{several:?}"));
        }
        reached.several(&several, &ended);
        one_store(seed, &case, &outcome, Several::alone(&case).run());
        orders_alone(seed, &mut reached);
        if seed % 10 == 0 {
            text::chartrun(&gen::text(seed));
            resume::chartresume(&gen::resume_text(seed));
            page::chartpage(&gen::image_text(seed));
        }
    }
    if options.seeds >= SEEDS && !reached.missing().is_empty() {
        fail(format!("never reached: {}", reached.missing().join(", ")));
    }
    println!("outside: plain machine alone, {}, up to {} steps, {} s", reached.summary(), reached.longest, begun.elapsed().as_secs());
}

/// The judges of an image agree, and what loads is the same graph when it is saved and loaded again.
fn judges(seed: u64, words: &[u32], capacities: Capacities, types: u32) {
    let (loaded, bad) = (image::load(words, capacities, types), image::bad(words, capacities, types));
    let saved_again = loaded.as_ref().map(|g| image::load(&image::save(g), capacities, types));
    let wrong = if loaded.is_some() != bad.is_none() {
        "load and have a bad one, or neither"
    } else if bad != image::bad_by_old_record(words, capacities, types) {
        "are bad at another place without their degrees"
    } else if saved_again.is_some_and(|again| again != loaded) {
        "are another graph when they are saved again"
    } else {
        return;
    };
    fail(format!("seed {seed}: words {wrong}: {words:?}"));
}

/// The orders of a seed, right and wrong, of vertices, edges and a list.
fn orders(seed: u64) -> Vec<Order> {
    (0..3).flat_map(|which| [gen::right_order(seed, which), Some(gen::wrong_order(seed, which))]).flatten().collect()
}

/// The calls for a wanted order arrive on the plain machine. It keeps whole graphs, so the largest are left out.
fn orders_alone(seed: u64, reached: &mut Reached) {
    for order in orders(seed) {
        let calls = order.calls();
        reached.order(order.items.kind(), calls.as_ref().err().copied().unwrap_or(0));
        if let Some((case, outcome)) = calls.ok().filter(|calls| calls.len() < 1_000).map(|calls| order.arrival(&calls)) {
            if case.run() != outcome {
                fail(format!("seed {seed}: calls for an order do not arrive: {order:?}"));
            }
        }
    }
}

/// Some of the short lists, with the sums of 4.20 asked for at every point.
fn woven(seed: u64, case: &Case) -> Option<(Case, Outcome)> {
    if seed % 4 != 0 || case.calls.len() > 5 * 250 {
        return None;
    }
    let woven = sums::woven(case)?;
    let outcome = woven.run();
    Some((woven, outcome))
}

fn sums_agree(seed: u64, outcome: &Outcome) -> usize {
    let Outcome::Done { answers, .. } = outcome else { fail(format!("seed {seed}: refused with more calls")) };
    sums::agree(answers).unwrap_or_else(|message| fail(format!("seed {seed}: {message}")))
}

/// What is remembered of a standing mark, by kinds and answers alone.
struct Mark {
    place: usize,
    graph: Graph,
    name: Option<Name>,
}

/// A step, by the bench that made it and its cost.
type Made = (u32, u32);

fn demands(case: &Case, outcome: &Outcome, reached: &mut Reached) -> Result<(), String> {
    let Ok(machine) = case.machine() else { return Ok(()) };
    let Outcome::Done { answers, image: end } = outcome else { return Err("refused and not refused".into()) };
    let calls = case.calls.chunks(5).zip(answers.chunks(2));
    let turns = calls.map(|(call, answer)| (u32::MAX, call.try_into().unwrap(), (answer[0], answer[1])));
    held(machine, turns, end, reached).map(|_| ())
}

/// The same of each of several stores, by its own calls alone, each at the joint room before it; and that room, by what the
/// stores have spent.
fn demands_of_each(several: &Several, ended: &Ended, reached: &mut Reached) -> Result<(), String> {
    let Ended::Done { images, .. } = ended else { return Ok(()) };
    let turns = several.turns();
    let mut spent = Vec::new();
    for (store, machine) in several.machines().unwrap().into_iter().enumerate() {
        let own = turns.iter().filter(|turn| turn.store == store).map(|turn| (turn.room, turn.call, turn.answer));
        spent.push(held(machine, own, &images[store], reached).map_err(|message| format!("store {}, {message}", store + 1))?.into_iter());
    }
    let mut now = vec![0; spent.len()];
    for (i, turn) in turns.iter().enumerate() {
        let all: u32 = now.iter().sum();
        if all > several.limit || turn.room != several.limit - all {
            return Err(format!("call {i} of a store: another room is left, or more is spent than the limit allows"));
        }
        now[turn.store] = spent[turn.store].next().unwrap();
    }
    Ok(())
}

/// REFERENCE 21.9: one of several stores is one store, but for the code of words that are left over behind a bad record or list.
fn one_store(seed: u64, case: &Case, outcome: &Outcome, ended: Ended) {
    let by_part = |code: &u32| matches!(code, 108 | 109) && *outcome == Outcome::Refused(105, 0);
    let other = matches!(&ended, Ended::Refused(code, _) if Several::left_over(case) && by_part(code));
    if !other && ended.one() != *outcome {
        fail(format!("seed {seed}: one of several stores is another machine\n{}", cases::told(case)));
    }
}

/// REFERENCE 4.11, 4.12 and 4.16 to 4.19 on the plain machine, by a record of its own of what each mark stood for and which
/// bench made each step, and 21.6; tells what was spent after each call. A turn is the joint room, the call and its answer.
fn held(mut machine: Machine, turns: impl Iterator<Item = (u32, Call, (u32, u32))>, end: &[u32], reached: &mut Reached) -> Result<Vec<u32>, String> {
    let (capacities, types) = (machine.capacities, machine.types.count());
    let mut set: BTreeMap<u32, Mark> = BTreeMap::new();
    let (mut bench, mut made): (u32, Vec<Made>) = (0, vec![]);
    let mut spent_after = Vec::new();
    for (i, (room, call, answer)) in turns.enumerate() {
        let [kind, a, b, c, _] = call;
        machine.joint = room;
        let state = |m: &Machine| (m.place, m.steps.len(), m.bench, m.marks.clone(), m.names.clone(), m.free());
        let place = machine.place;
        let costs = |from: usize, to: usize| made[from.min(to)..to].iter().map(|step| step.1).sum::<u32>();
        let (spent, free) = (costs(0, place), room.min(capacities.changes - costs(0, place)));
        let (before, graph) = (state(&machine), machine.present().clone());
        let (code, number) = machine.call(call);
        let wrong = |what: &str| Err(format!("call {i}, {call:?}: {what}"));
        if answer != (code, number) {
            return wrong("two answers");
        }
        let named = |name: Name| set.iter().find(|mark| mark.1.name == Some(name)).map(|mark| *mark.0);
        let found = match kind {
            21 if set.contains_key(&a) => Some(a),
            57 => named([a, b]),
            _ => None,
        };
        if kind == 57 && found.is_none() && code != 19 {
            return wrong("a name is found that no mark has");
        }
        // Where it leads, and what is needed for that.
        let to = if kind == 20 && place < made.len() { Some(place + 1) } else { found.map(|mark| set[&mark].place) };
        if to.is_some_and(|to| code != if costs(place, to) > free { 10 } else { 0 }) {
            return wrong("refused with room enough, or accepted without");
        }
        if kind == 51 && number != free {
            return wrong("not what is free");
        }
        let taken = [b, c] == [0, 0] || named([b, c]).is_some_and(|holder| holder != a);
        if kind == 56 && set.contains_key(&a) && code != if taken { 18 } else { 0 } {
            return wrong("a name is given that is taken, or refused that is free");
        }
        if kind == 58 && (code == 0) != (a <= LAST_BENCH) {
            return wrong("not a bench, or one that is refused");
        }
        let nothing = code != 0 || (is_change(kind) && number == 0);
        if nothing && (number != 0 || state(&machine) != before || *machine.present() != graph) {
            return wrong("refused, or answered 0, and changed something");
        }
        match kind {
            _ if nothing => {}
            1..=16 => {
                set.retain(|_, mark| mark.place <= place);
                made.truncate(place);
                made.push((bench, number));
                if *machine.present() == graph
                    || machine.place != place + 1
                    || number > free
                    || machine.spent() != spent + number
                    || !image::is_chart(machine.present(), capacities, types)
                {
                    return wrong("not a step");
                }
            }
            17 => {
                set.insert(a, Mark { place, graph, name: None });
            }
            18 => {
                set.remove(&a);
            }
            21 | 57 => {
                let mark = &set[&found.unwrap()];
                if number as usize != place.abs_diff(mark.place) || *machine.present() != mark.graph {
                    return wrong("not the graph of the mark");
                }
            }
            22 => {
                set.clear();
                made.clear();
            }
            56 => set.get_mut(&a).unwrap().name = Some([b, c]),
            58 => bench = a,
            59 => {
                let places = [set[&a].place, set[&b].place];
                let between = &made[*places.iter().min().unwrap()..*places.iter().max().unwrap()];
                if between.iter().filter(|by| by.0 == c).count() != number as usize {
                    return wrong("not the steps of that bench");
                }
            }
            _ => {}
        }
        if !set.keys().eq(machine.marks.keys()) {
            return wrong("other marks stand");
        }
        let told = set.iter().filter_map(|(mark, told)| told.name.map(|name| (*mark, name)));
        if !told.eq(machine.names.iter().map(|(mark, name)| (*mark, *name))) {
            return wrong("other names stand");
        }
        if machine.bench != bench || machine.steps.len() != made.len() {
            return wrong("another bench, or other steps");
        }
        spent_after.push(made[..machine.place].iter().map(|step| step.1).sum());
        reached.longest = reached.longest.max(machine.steps.len());
    }
    if !machine.steps.iter().map(|step| (step.bench, step.cost)).eq(made) {
        return Err("a step has another bench or cost than made it".into());
    }
    let g = machine.present();
    if image::save(g) != *end || image::load(end, capacities, types).as_ref() != Some(g) {
        return Err("saved and loaded is another graph".into());
    }
    Ok(spent_after)
}

#[cfg(not(feature = "engine"))]
mod compare {
    pub fn run(_: &super::Options) {
        eprintln!("outside: built without the feature `engine`; only --self, --text, --page and --cases run");
        std::process::exit(2)
    }
}

#[cfg(feature = "engine")]
mod compare {
    use super::*;
    use outside::gen::Size;
    use outside::reduction::Reduced;
    use outside::{engine, examples, recording, stores};
    use std::sync::atomic::{AtomicU64, Ordering};
    use std::time::Duration;

    /// The most words that a recorded list is lent for copies.
    const MOST_COPIES: usize = 1 << 23;

    /// The seed at work, for a report if the engine is killed by a signal.
    static SEED: AtomicU64 = AtomicU64::new(0);

    extern "C" {
        fn signal(number: i32, handler: extern "C" fn(i32)) -> usize;
        fn write(file: i32, bytes: *const u8, len: usize) -> isize;
        fn _exit(status: i32) -> !;
    }

    extern "C" fn killed(_: i32) {
        let mut line = *b"outside: killed at seed                     \n";
        let mut n = SEED.load(Ordering::Relaxed);
        let mut at = line.len() - 2;
        loop {
            line[at] = b'0' + (n % 10) as u8;
            n /= 10;
            if n == 0 {
                break;
            }
            at -= 1;
        }
        // SAFETY: both may be called from a signal handler; the pointer is to a live array.
        unsafe {
            write(1, line.as_ptr(), line.len());
            _exit(1)
        }
    }

    pub fn run(options: &Options) {
        for number in [4, 6, 7, 8, 11] {
            // SAFETY: the handler only writes a line and ends the process.
            unsafe { signal(number, killed) };
        }
        let begun = Instant::now();
        let mut reached = Reached::default();
        run_examples();
        let kept = options.vectors.as_deref().map_or(0, run_vectors);
        for seed in options.from..options.from + options.seeds {
            SEED.store(seed, Ordering::Relaxed);
            let case = gen::case(seed);
            let outcome = case.run();
            if let Err(message) = engine::compare(&case, &outcome, seed) {
                report(seed, &case, &message);
            }
            if let Some((woven, outcome)) = super::woven(seed, &case) {
                reached.points += sums_agree(seed, &outcome);
                if let Err(message) = engine::compare(&woven, &outcome, seed) {
                    report(seed, &woven, &message);
                }
            }
            if gen::size_of(seed) == Size::Full {
                // Again with other junk.
                if let Err(message) = engine::compare(&case, &outcome, !seed) {
                    report(seed, &case, &message);
                }
            }
            let room = case.copies_room(seed).min(MOST_COPIES);
            let recorded = case.record(room);
            if let Err(message) = engine::compare_recording(&case, room, &recorded, seed) {
                fail(format!("seed {seed}: recorded with {room} words for copies: {message}\n{}", cases::told(&case)));
            }
            reached.recording(&recorded);
            if seed % REDUCED == 0 {
                let (case, room) = reduction::case(seed);
                let reduced = case.reduce(room);
                if let Err(message) = engine::compare_reduction(&case, room, &reduced, seed) {
                    fail(format!("seed {seed}: reduced to a list of {room} words: {message}\n{}", cases::told(&case)));
                }
                reached.reduction(&case, &reduced);
            }
            if let Err(message) = engine::compare_parts(&gen::words(seed)) {
                fail(format!("seed {seed}: {message}\nwords {:?}", gen::words(seed)));
            }
            let (words, room) = gen::page(seed);
            match engine::compare_page(&words, room, seed) {
                Err(message) => fail(format!("seed {seed}: page of {room} bytes: {message}\nwords {words:?}")),
                Ok(code) => reached.page(code),
            }
            let (one, two, tolerance) = gen::pair(seed);
            match engine::compare_images(&one, &two, tolerance) {
                Err(message) => fail(format!("seed {seed}: comparison within {tolerance}: {message}\nfirst {one:?}\nsecond {two:?}")),
                Ok(code) => reached.comparison(code),
            }
            if let Err(message) = engine::compare_images(&one, &one, tolerance) {
                fail(format!("seed {seed}: comparison with itself within {tolerance}: {message}\nwords {one:?}"));
            }
            let several = gen::several(seed);
            let ended = several.run();
            if let Err(message) = engine::compare_stores(&several, &ended, seed) {
                fail(format!("seed {seed}: {message}\n{several:?}"));
            }
            reached.several(&several, &ended);
            if gen::size_of(seed) != Size::Full {
                // One store by the other entry.
                let alone = Several::alone(&case);
                let ended = alone.run();
                if let Err(message) = engine::compare_stores(&alone, &ended, seed) {
                    fail(format!("seed {seed}: one of several: {message}\n{alone:?}"));
                }
                one_store(seed, &case, &outcome, ended);
            }
            for order in orders(seed) {
                match engine::compare_order(&order, seed) {
                    Err(message) => fail(format!("seed {seed}: order: {message}\n{order:?}")),
                    Ok(code) => reached.order(order.items.kind(), code),
                }
            }
            reached.add(&case, &outcome);
        }
        if options.seeds >= SEEDS && !reached.missing().is_empty() {
            fail(format!("never reached: {}", reached.missing().join(", ")));
        }
        let seeds = options.from..options.from + (options.seeds / 20).max(50);
        let mut texts = options.chartrun.as_deref().map_or(0, |program| programs::run_chartrun(program, seeds.clone()));
        texts += options.chartpage.as_deref().map_or(0, |program| programs::run_chartpage(program, seeds.clone()));
        if let Some(program) = options.chartresume.as_deref() {
            texts += programs::run_chartresume(program, seeds.clone());
            texts += options.chartrun.as_deref().map_or(0, |chartrun| programs::run_goes_on(program, chartrun, seeds));
        }
        println!("outside: no difference in {}", reached.reductions());
        println!("outside: no difference in {}, {kept} vectors, {texts} texts, {} s", reached.summary(), begun.elapsed().as_secs());
    }

    fn run_examples() {
        for e in examples::codes().iter().chain(&examples::letters()).chain(&examples::slips()).chain(&examples::names()).chain(&examples::benches()) {
            let case = e.case();
            let outcome = case.run();
            let flat: Vec<u32> = e.answers.iter().flat_map(|a| [a.0, a.1]).collect();
            if !matches!(&outcome, Outcome::Done { answers, .. } if *answers == flat) {
                fail(format!("example {}: the plain machine answers otherwise", e.name));
            }
            if let Err(message) = engine::compare(&case, &outcome, 1) {
                fail(format!("example {}: {message}", e.name));
            }
        }
        let grades = examples::every_grade();
        if let Err(message) = engine::compare(&grades, &grades.run(), 1) {
            fail(format!("the grades of all ranges: {message}"));
        }
        for (name, calls, words, ..) in recording::examples() {
            let case = recording::case(calls);
            for room in [words, words - 1, words + 5] {
                if let Err(message) = engine::compare_recording(&case, room, &case.record(room), 1) {
                    fail(format!("{name}, recorded with {room} words for copies: {message}"));
                }
            }
        }
        for (name, calls, kept, runs) in reduction::EXAMPLES {
            let case = reduction::on_seven(calls);
            let reduced = case.reduce(case.calls.len());
            if reduced != (Reduced::Done { calls: kept.concat(), runs }) {
                fail(format!("reduced, {name}: the plain machine comes to {reduced:?}"));
            }
            for room in [case.calls.len(), case.calls.len() + 9, case.calls.len() - 1] {
                if let Err(message) = engine::compare_reduction(&case, room, &case.reduce(room), 1) {
                    fail(format!("reduced, {name}: {message}"));
                }
            }
        }
        for (count, code) in reduction::MANY {
            if let Err(message) = engine::compare_reduction(&reduction::questions(count), 5 * count, &Reduced::Refused(code, 0), 1) {
                fail(format!("reduced, {count} calls: {message}"));
            }
        }
        for calls in [&stores::SHARED[..], &stores::AHEAD] {
            let several = stores::two(calls);
            let ended = several.run();
            let due: Vec<u32> = calls.iter().flat_map(|call| [call.1 .0, call.1 .1]).collect();
            if !matches!(&ended, Ended::Done { answers, .. } if *answers == due) {
                fail("two stores: the plain machines answer otherwise".into());
            }
            if let Err(message) = engine::compare_stores(&several, &ended, 1) {
                fail(format!("two stores: {message}"));
            }
        }
        for (name, several, code, number) in stores::refused() {
            if let Err(message) = engine::compare_stores(&several, &Ended::Refused(code, number), 1) {
                fail(format!("two stores, {name}: {message}"));
            }
        }
        for (code, number, case) in examples::list_codes() {
            if let Err(message) = engine::compare(&case, &Outcome::Refused(code, number), 1) {
                fail(format!("example of code {code}: {message}"));
            }
        }
    }

    fn run_vectors(dir: &str) -> usize {
        let mut files: Vec<_> = match std::fs::read_dir(dir) {
            Ok(found) => found.map(|f| f.unwrap().path()).filter(|f| f.extension().is_some_and(|e| e == "case")).collect(),
            Err(e) => fail(format!("{dir}: {e}")),
        };
        files.sort();
        for file in &files {
            let text = std::fs::read_to_string(file).unwrap();
            let runs = cases::runs(&text).unwrap_or_else(|line| fail(format!("{}: line {line} is none", file.display())));
            for case in &runs {
                if let Err(message) = engine::compare(case, &case.run(), 1) {
                    fail(format!("{}: {message}", file.display()));
                }
            }
        }
        files.len()
    }

    /// Prints the smallest list found by leaving out calls, and ends.
    fn report(seed: u64, case: &Case, message: &str) -> ! {
        let differs = |case: &Case| engine::compare(case, &case.run(), seed).is_err();
        let mut small = case.clone();
        let rest = small.calls.len() % 5;
        let mut chunk = (small.calls.len() / 5).next_power_of_two().max(1);
        let limit = Instant::now() + Duration::from_secs(30);
        while chunk > 0 && rest == 0 && differs(&small) && Instant::now() < limit {
            let mut at = 0;
            while at < small.calls.len() && Instant::now() < limit {
                let mut less = small.clone();
                let end = (at + 5 * chunk).min(less.calls.len());
                less.calls.drain(at..end);
                if differs(&less) {
                    small = less;
                } else {
                    at = end;
                }
            }
            chunk /= 2;
        }
        let shown = engine::compare(&small, &small.run(), seed).err();
        fail(format!("seed {seed}: {message}\nshrunk to {} calls: {}\n{}", small.calls.len() / 5, shown.unwrap_or_default(), cases::told(&small)))
    }
}
