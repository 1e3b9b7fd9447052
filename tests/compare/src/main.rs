//! Compares the loader, through the functions that crates/exports exports, with the second program.
//!
//! `compare [SEQUENCES [SEED [BENCH...]]]`: program transfers to both memories at the same addresses, a board of every SSB value, blank
//! checks at the edges of pages, every state with busy counts, the serial plug, then so many sequences and as many jobs; BENCH are the
//! words that start our bench program.
//! It prints how often each thing was reached, and fails at the first difference, or if something was not reached.

mod busy;
mod commands;
mod every_ssb;
mod jobs;
mod layout;
mod make;
mod memories_apart;
mod page_edges;
mod random;
mod sequence;
mod serial;
mod shrink;
mod tally;

use commands::Writing;
use jobs::Bench;
use random::Random;
use sequence::{Pair, Request, Sequence, Step};
use std::process::ExitCode;
use tally::Tally;

const SEQUENCES: u64 = 5_200;
const STEPS: usize = 46;
/// Writer runs of any numbers in each sequence, besides those of what was read.
const WRITINGS: usize = 4;

fn main() -> ExitCode {
    let words: Vec<String> = std::env::args().skip(1).collect();
    let number = |at: usize, default: u64| words.get(at).map_or(default, |word| word.parse().expect("a number"));
    let (sequences, seed) = (number(0, SEQUENCES), number(1, 1));
    let mut bench = Bench::new(words.get(2..).unwrap_or(&[]));
    println!("compare: {sequences} sequences and jobs from seed {seed}");
    let (mut tally, mut busy, mut records) = (Tally::default(), Tally::default(), serial::Tally::default());
    let on_plug = |what| format!("on the serial plug\n{what}");
    let found = delivered()
        .or_else(|| first(boards(), &mut tally))
        .or_else(|| first(busy::boards(), &mut busy))
        .or_else(|| serial::difference(sequences, seed, &mut records).map(on_plug));
    if let Some(what) = found {
        println!("DIFFERENCE {what}");
        return ExitCode::FAILURE;
    }
    for index in 0..sequences {
        let own = Random::seed_of(seed, index);
        if let Some(what) = one(&mut Random::new(own), &mut bench, &mut tally) {
            println!("DIFFERENCE in sequence {index} of seed {seed}\n{what}");
            return ExitCode::FAILURE;
        }
    }
    while !bench.is_done() {
        if let Some((file, _)) = bench.wait() {
            println!("DIFFERENCE in one of the last jobs of seed {seed}\n{}", lines_told(&bench, file));
            return ExitCode::FAILURE;
        }
    }
    println!(
        "compare: {} requests, {} jobs, {} of them through both bench programs, {} records of the serial plug, no difference",
        tally.requests, tally.jobs, tally.bench_runs, records.records
    );
    let mut missed = tally.report();
    println!("compare: {} requests in every state with busy counts, no difference", busy.requests);
    missed.extend(busy.report_busy());
    missed.extend(records.report());
    if !missed.is_empty() {
        println!("NOT REACHED: {}", missed.join(", "));
        return ExitCode::FAILURE;
    }
    ExitCode::SUCCESS
}

/// The configuration of a delivered board.
fn delivered() -> Option<String> {
    sequence::number("delivered", exports::delivered(), layout::pack_config(&second::Config::DELIVERED))
}

/// The boards of each level with both memories programmed, those of every SSB value, and those with a byte at an edge of a page.
fn boards() -> impl Iterator<Item = (String, Sequence)> {
    let apart = memories_apart::LEVELS
        .iter()
        .map(|&ssb| (format!("with both memories programmed at SSB {ssb:02X}h"), memories_apart::sequence(ssb)));
    let every_ssb = (0..=255).map(|ssb| (format!("at SSB {ssb:02X}h"), every_ssb::sequence(ssb)));
    let page_edges = page_edges::PLACES.iter().map(|&used| (format!("with a byte at {used:04X}h"), page_edges::sequence(used)));
    apart.chain(every_ssb).chain(page_edges)
}

/// The first difference on these boards.
fn first(mut boards: impl Iterator<Item = (String, Sequence)>, tally: &mut Tally) -> Option<String> {
    boards.find_map(|(place, sequence)| {
        sequence.run(tally)?;
        Some(format!("{place}\n{}", told(&shrink::sequence(sequence))))
    })
}

/// One sequence of requests, the payloads in it through reader and writer, and one job.
fn one(random: &mut Random, bench: &mut Bench, tally: &mut Tally) -> Option<String> {
    let mut sequence = make::board(random);
    let mut pair = Pair::new(&sequence);
    for _ in 0..STEPS {
        let step = make::step(random, &pair.second.session);
        sequence.steps.push(step.clone());
        if pair.take(&step, tally).is_some() {
            return Some(told(&shrink::sequence(sequence)));
        }
        if let Step::Ask(request) = step {
            if commands::difference(&request.data, tally).is_some() {
                let differs = |payload: &[u8]| commands::difference(payload, &mut Tally::default()).is_some();
                let payload = shrink::list(request.data, differs);
                let what = commands::difference(&payload, &mut Tally::default());
                return Some(format!("payload {}\n{}", hex(&payload), what.unwrap_or_default()));
            }
        }
    }
    for _ in 0..WRITINGS {
        let writing = commands::writing(random);
        if let Some(what) = writing.difference(tally) {
            let Writing { command, body, suffix, room } = &writing;
            return Some(format!("command {command:X}h, body {}, suffix {}, room {room}\n{what}", hex(body), hex(suffix)));
        }
    }
    job(random, bench, tally)
}

fn job(random: &mut Random, bench: &mut Bench, tally: &mut Tally) -> Option<String> {
    let file = jobs::job(random);
    tally.jobs += 1;
    if jobs::difference(&file, tally).is_some() {
        let differs = |smaller: &[u8]| jobs::difference(smaller, &mut Tally::default());
        let file = shrink::list(file, |smaller| differs(smaller).is_some());
        return Some(format!("job {}\n{}", hex(&file), differs(&file).unwrap_or_default()));
    }
    bench.hand(&file, tally).map(|(file, _)| lines_told(bench, file))
}

/// The smallest job of which the two bench programs print other lines.
fn lines_told(bench: &Bench, file: Vec<u8>) -> String {
    let file = shrink::list(file, |smaller| bench.difference(smaller).is_some());
    format!("job {}\n{}", hex(&file), bench.difference(&file).unwrap_or_default())
}

fn hex(bytes: &[u8]) -> String {
    if bytes.is_empty() {
        return "-".into();
    }
    bytes.iter().map(|byte| format!("{byte:02X}")).collect()
}

/// What a step was and in which state it came.
fn place(step: &Step, state: u8) -> String {
    let Step::Ask(Request { setup, data, .. }) = step else { return "at power-up: ".into() };
    match (tally::request_name(setup), &data[..]) {
        ("DNLOAD", [1, ..]) => "in a program transfer: ".into(),
        ("DNLOAD", [3, 1, ..]) => "in a blank check: ".into(),
        (name, _) => format!("{name} in state {state}: "),
    }
}

/// The smallest sequence in words.
fn told(sequence: &Sequence) -> String {
    let found = sequence.run(&mut Tally::default()).expect("it shows a difference");
    let Sequence { session, busy, config, fill, steps } = sequence;
    let mut text = format!("board: session {session:X}h, busy count {busy}, configuration {config:X}h, memories {fill:?}\n");
    for step in steps {
        text += &match step {
            Step::Ask(request) => format!(
                "request: setup {}, data {}, flash {}, EEPROM {}, reply {}\n",
                hex(&request.setup),
                hex(&request.data),
                request.flash,
                request.eeprom,
                request.reply
            ),
            Step::PowerUp => "power-up\n".into(),
            Step::Session(n) => format!("session set to {n:X}h\n"),
            Step::Busy(n) => format!("busy count set to {n}\n"),
            Step::Config(n) => format!("configuration set to {n:X}h\n"),
        };
    }
    text + &place(&steps[found.at], found.session.state) + &found.what
}
