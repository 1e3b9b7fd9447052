//! How often each thing was reached on the serial plug, and what has to be.

use super::rows;
use super::Record;
use second::serial::{Answer, Outcome};
use std::collections::{BTreeMap, BTreeSet};

const ANSWERS: [&str; 7] = [".", "X", "P", "value", "address", "display of one line", "display of several lines"];
const STARTS: [&str; 2] = ["start by reset", "start at address"];
const LEVELS: [&str; 3] = ["level 0", "level 1", "level 2"];
const SSB: [&str; 4] = ["FFh", "FEh", "FCh", "odd"];
/// What a record refused with 17 was meant to be.
pub const CAUSES: [&str; 16] = [
    "no digit",
    "mark",
    "mark missing",
    "a character too few",
    "a character too many",
    "a pair too few",
    "a pair too many",
    "unknown type",
    "unlisted code",
    "bit value",
    "a byte of data too few",
    "a byte of data too many",
    "program of no data",
    "program of too much data",
    "past FFFFh",
    "backward range",
];
/// How many values a byte has.
const BYTES: usize = 256;

#[derive(Default)]
pub struct Tally {
    counts: BTreeMap<&'static str, BTreeMap<String, u64>>,
    /// The SSB values that each row met, and the data lengths that reader and writer took.
    met: BTreeMap<String, BTreeSet<usize>>,
    ssb: u8,
    pub records: u64,
}

/// The level that an SSB sets: "a value other than FFh and FEh is level 2".
fn level(ssb: u8) -> usize {
    match ssb {
        0xFF => 0,
        0xFE => 1,
        _ => 2,
    }
}

/// What kind of answer it is; nothing where it is refused.
fn kind(answer: &Answer, room: &[u8]) -> Option<&'static str> {
    match answer.outcome {
        Outcome::Answered => {}
        Outcome::StartReset => return Some(STARTS[0]),
        Outcome::StartAt(_) => return Some(STARTS[1]),
        Outcome::Refused(_) => return None,
    }
    let text = &room[..answer.length];
    let lines = text.split(|&character| character == b'\n').count() - 1;
    Some(match text {
        b".\r\n" => ".",
        b"X\r\n" => "X",
        b"P\r\n" => "P",
        [_, _, b'.', b'\r', b'\n'] => "value",
        [_, _, _, _, b'\r', b'\n'] => "address",
        _ if lines > 1 => "display of several lines",
        _ => "display of one line",
    })
}

impl Tally {
    pub fn add(&mut self, kind: &'static str, name: impl Into<String>) {
        *self.counts.entry(kind).or_default().entry(name.into()).or_default() += 1;
    }

    /// A length of data that was read or written.
    pub fn add_length(&mut self, name: &str, length: usize) {
        self.met.entry(name.into()).or_default().insert(length);
    }

    pub fn before(&mut self, ssb: u8) {
        self.ssb = ssb;
        self.add("level", LEVELS[level(ssb)]);
        let class = SSB.iter().find(|name| **name == format!("{ssb:02X}h"));
        self.add("SSB", *class.unwrap_or(&SSB[3]));
    }

    pub fn after(&mut self, record: &Record, answer: &Answer, room: &[u8]) {
        self.records += 1;
        match answer.outcome {
            Outcome::Refused(17) => self.add("refused 17", record.aim),
            Outcome::Refused(number) => self.add("refused", number.to_string()),
            _ => {}
        }
        self.add("pages", answer.pages.to_string());
        let Some(kind) = kind(answer, room) else { return };
        self.add("answer", kind);
        if rows::names().any(|(name, _)| name == record.aim) && kind != "X" {
            self.add(if kind == "P" { "row with P" } else { "row done" }, record.aim);
            self.met.entry(every_ssb(record.aim)).or_default().insert(self.ssb.into());
        }
        if record.aim == rows::PROGRAM.0 && kind == "." {
            self.add_length("programmed", (record.characters.len() - 11) / 2);
        }
    }

    pub fn is_short(&self, answer: &Answer) -> bool {
        answer.outcome == Outcome::Refused(9)
    }

    /// The answer that 9 stood in place of.
    pub fn in_place_of(&mut self, full: &Answer, room: &[u8]) {
        self.add("9 in place of", kind(full, room).unwrap_or("a refusal"));
    }

    /// What a run has to have reached.
    fn wanted() -> Vec<(&'static str, Vec<String>)> {
        let names = |list: &[&str]| list.iter().map(|name| name.to_string()).collect::<Vec<_>>();
        let all = rows::names().map(|(name, _)| name.to_string()).collect();
        let barred = rows::names().filter(|(_, from)| *from < 3).map(|(name, _)| name.to_string()).collect();
        vec![
            ("answer", names(&[&ANSWERS[..], &STARTS[..]].concat())),
            ("9 in place of", names(&ANSWERS)),
            ("refused", names(&["2", "9"])),
            ("refused 17", names(&CAUSES)),
            ("pages", names(&["0", "1", "2", "64", "128", "256", "512"])),
            ("level", names(&LEVELS)),
            ("SSB", names(&SSB)),
            ("row done", all),
            ("row with P", barred),
            ("letters", names(&["capital", "small", "of both sizes"])),
            ("reader", names(&["taken", "wrong checksum", "refused 17", "refused 9"])),
            ("writer", names(&["written", "refused 17", "refused 9"])),
        ]
    }

    /// Prints every count, and gives what was wanted and not reached.
    pub fn report(&self) -> Vec<String> {
        let mut missed = Vec::new();
        for (kind, names) in Tally::wanted() {
            let found = self.counts.get(kind);
            let count = |name: &String| found.and_then(|found| found.get(name)).copied().unwrap_or(0);
            let line: Vec<String> = names.iter().map(|name| format!("{name}: {}", count(name))).collect();
            println!("  serial {kind}: {}", line.join(", "));
            missed.extend(names.iter().filter(|&name| count(name) == 0).map(|name| format!("serial {kind} {name}")));
        }
        missed.extend(self.missed_values());
        missed
    }

    /// Rows that did not meet every SSB, and lengths that were not read, written or programmed.
    fn missed_values(&self) -> Vec<String> {
        let lengths = [("read", BYTES), ("written", BYTES), ("programmed", 128)].map(|(name, count)| (name.to_string(), count));
        let wanted = rows::names().map(|(name, _)| (every_ssb(name), BYTES)).chain(lengths);
        let found = |name: &String| self.met.get(name).map_or(0, BTreeSet::len);
        wanted.filter(|(name, count)| found(name) < *count).map(|(name, count)| format!("{count} values of {name}")).collect()
    }
}

fn every_ssb(row: &str) -> String {
    format!("SSB at {row}")
}
