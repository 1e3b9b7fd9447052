//! The serial plug: a board and the records that it is sent, run through both programs.

pub mod layout;
mod make;
mod paper;
mod parts;
mod rows;
mod tally;
mod walks;

use crate::random::Random;
use crate::sequence::{number, place};
use crate::shrink;
use second::serial::{Answer, Config};
pub use tally::Tally;

pub const FLASH: usize = 65_536;
/// The answer to a display of all flash: 4,096 lines of an address, `=`, 32 digits, CR and LF.
pub const MOST_ROOM: usize = 4_096 * 39;
/// What is lent may be longer than it should be, and stands in a buffer that is longer still.
pub const GUARD: usize = 64;
/// How much of a room is filled anew before a record.
const REFILLED: usize = 1_024;
/// How many records a sequence has.
const RECORDS: usize = 42;

/// What the flash holds at first.
#[derive(Clone, Copy, Debug, PartialEq)]
pub enum Fill {
    Blank,
    /// Blank but for some pages, from a seed.
    Places(u64),
    /// Anything, from a seed.
    Any(u64),
}

/// The characters, how much of flash and room is lent, and what the record is meant to be.
#[derive(Clone, Debug, PartialEq)]
pub struct Record {
    pub characters: Vec<u8>,
    pub flash: usize,
    pub room: usize,
    pub aim: &'static str,
}

#[derive(Clone, Debug, PartialEq)]
pub enum Step {
    Take(Record),
    /// The configuration is set to any number.
    Config(u32),
    /// A byte of flash is set.
    Byte(u16, u8),
}

#[derive(Clone, Debug, PartialEq)]
pub struct Sequence {
    pub config: u32,
    pub fill: Fill,
    pub steps: Vec<Step>,
}

/// A board with room beyond its flash.
fn flash_of(fill: Fill) -> Vec<u8> {
    let mut flash = vec![0xFF; FLASH + GUARD];
    match fill {
        Fill::Blank => {}
        Fill::Places(seed) => {
            let mut random = Random::new(seed);
            for _ in 0..1 + random.below(3) {
                let at = make::address(&mut random);
                let count = 1 + random.below(200);
                let bytes = random.bytes(count);
                flash[usize::from(at)..].iter_mut().zip(bytes).for_each(|(byte, value)| *byte = value);
            }
        }
        Fill::Any(seed) => {
            let mut random = Random::new(seed);
            for eight in flash.chunks_exact_mut(8) {
                eight.copy_from_slice(&random.next().to_le_bytes());
            }
        }
    }
    flash
}

/// Both boards, alike before every step.
struct Pair {
    config: u32,
    flash: Vec<u8>,
    room: Vec<u8>,
    second: Second,
}

struct Second {
    config: Config,
    flash: Vec<u8>,
    room: Vec<u8>,
}

impl Second {
    fn take(&mut self, record: &Record) -> Answer {
        let (flash, room) = (&mut self.flash[..record.flash], &mut self.room[..record.room]);
        let answer = second::serial::step(self.config, &record.characters, flash, room);
        self.config = answer.config;
        answer
    }

    /// What it would answer to a record for which the room was too short, and the answer's characters.
    fn answer_in_full(&self, record: &Record) -> (Answer, Vec<u8>) {
        let (mut flash, mut room) = (self.flash.clone(), vec![0; MOST_ROOM]);
        let answer = second::serial::step(self.config, &record.characters, &mut flash[..record.flash], &mut room);
        (answer, room)
    }
}

impl Pair {
    fn new(config: u32, fill: Fill) -> Pair {
        let (flash, room) = (flash_of(fill), vec![0; MOST_ROOM + GUARD]);
        let second = Second { config: layout::config(config), flash: flash.clone(), room: room.clone() };
        Pair { config, flash, room, second }
    }

    /// Takes one step with both, and gives the first difference.
    fn take(&mut self, step: &Step, tally: &mut Tally) -> Option<String> {
        match step {
            Step::Take(record) => return self.ask(record, tally),
            Step::Config(n) => {
                self.config = *n;
                self.second.config = layout::config(*n);
            }
            Step::Byte(at, value) => {
                self.flash[usize::from(*at)] = *value;
                self.second.flash[usize::from(*at)] = *value;
            }
        }
        None
    }

    /// What is lent holds something else than the last answer.
    fn refill(&mut self, record: &Record) {
        let salt = record.characters.iter().fold(0xA5_u8, |sum, &byte| sum.rotate_left(1) ^ byte);
        let count = REFILLED.min(record.room + GUARD);
        for (at, (ours, second)) in self.room[..count].iter_mut().zip(&mut self.second.room).enumerate() {
            (*ours, *second) = (at as u8 ^ salt, at as u8 ^ salt);
        }
    }

    fn ask(&mut self, record: &Record, tally: &mut Tally) -> Option<String> {
        self.refill(record);
        tally.before(self.second.config.ssb);
        let (flash, room) = (&mut self.flash[..record.flash], &mut self.room[..record.room]);
        let (outcome, count, pages) = exports::serial::step(&mut self.config, &record.characters, flash, room);
        let answer = self.second.take(record);
        tally.after(record, &answer, &self.second.room);
        if tally.is_short(&answer) {
            let (full, text) = self.second.answer_in_full(record);
            tally.in_place_of(&full, &text);
        }
        let lent = record.room + GUARD;
        number("outcome", outcome, layout::pack_outcome(&answer.outcome))
            .or_else(|| number("characters", count as u64, answer.length as u64))
            .or_else(|| number("pages", pages as u64, answer.pages as u64))
            .or_else(|| number("configuration", self.config.into(), layout::pack_config(&self.second.config).into()))
            .or_else(|| place("room", &self.room[..lent], &self.second.room[..lent]))
            .or_else(|| place("flash", &self.flash, &self.second.flash))
    }
}

impl Sequence {
    /// Runs it through both: the place of the step with the first difference, and the difference.
    fn run(&self, tally: &mut Tally) -> Option<(usize, String)> {
        let mut pair = Pair::new(self.config, self.fill);
        self.steps.iter().enumerate().find_map(|(at, step)| pair.take(step, tally).map(|what| (at, what)))
    }

    fn with(&self, steps: &[Step]) -> Sequence {
        Sequence { steps: steps.to_vec(), ..*self }
    }

    /// The smallest sequence that still shows a difference, in words.
    fn told(mut self) -> String {
        self.steps = shrink::list(self.steps.clone(), |steps| self.with(steps).run(&mut Tally::default()).is_some());
        let (at, what) = self.run(&mut Tally::default()).unwrap_or_default();
        let mut text = format!("board: configuration {:X}h, flash {:?}\n", self.config, self.fill);
        for step in &self.steps[..=at] {
            text += &match step {
                Step::Take(Record { characters, flash, room, .. }) => {
                    format!("record {:?}, flash {flash}, room {room}\n", String::from_utf8_lossy(characters))
                }
                Step::Config(n) => format!("configuration set to {n:X}h\n"),
                Step::Byte(at, value) => format!("flash at {at:04X}h set to {value:02X}h\n"),
            };
        }
        let aim = if let Step::Take(record) = &self.steps[at] { record.aim } else { "" };
        format!("{text}in a record ({aim}): {what}")
    }
}

/// The configuration of a delivered board.
fn delivered() -> Option<String> {
    number("delivered", exports::serial::delivered().into(), layout::pack_config(&second::serial::delivered()).into())
}

/// The paper's examples, the walks, then so many sequences; each record through the reader too, and writer runs of any size.
pub fn difference(sequences: u64, seed: u64, tally: &mut Tally) -> Option<String> {
    if let Some(what) = delivered().or_else(paper::difference).or_else(|| parts::walk(tally)) {
        return Some(what);
    }
    for sequence in walks::all() {
        if sequence.run(tally).is_some() {
            return Some(sequence.told());
        }
    }
    (0..sequences).find_map(|index| {
        let what = one(&mut Random::new(Random::seed_of(!seed, index)), tally)?;
        Some(format!("in sequence {index} of seed {seed}\n{what}"))
    })
}

/// One sequence, whose records are made as it runs.
fn one(random: &mut Random, tally: &mut Tally) -> Option<String> {
    let mut sequence = make::board(random);
    let mut pair = Pair::new(sequence.config, sequence.fill);
    let mut records = 0;
    while records < RECORDS {
        let step = make::step(random, pair.second.config.ssb);
        sequence.steps.push(step.clone());
        if pair.take(&step, tally).is_some() {
            return Some(sequence.told());
        }
        if let Step::Take(record) = step {
            records += 1;
            let size = make::room(random, record.characters.len() / 2);
            let what = parts::read_difference(&record.characters, size, tally);
            if what.is_some() {
                return what;
            }
        }
    }
    let (count, room) = (random.below(301), make::room(random, 320));
    parts::write_difference(random, count, room, tally)
}
