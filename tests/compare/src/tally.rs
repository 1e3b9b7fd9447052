//! How often each thing was reached, and what has to be.

use crate::every_ssb::SSB;
use crate::layout::{pack_command, pending_words};
use crate::make::MOST_BUSY;
use crate::sequence::Request;
use second::{Answer, Command, Config, Level, Outcome, Reading, Session, StartKind};
use std::collections::{BTreeMap, BTreeSet};

pub const STATES: [u8; 8] = [0, 2, 3, 4, 5, 6, 9, 10];
const PENDING: [&str; 7] =
    ["nothing", "flash read", "EEPROM read", "blank report", "one byte", "start by reset", "start at address"];
const COMMANDS: [&str; 16] = [
    "program flash",
    "program EEPROM",
    "read flash",
    "read EEPROM",
    "blank check",
    "erase 0000h",
    "erase 2000h",
    "erase 4000h",
    "erase chip",
    "write byte",
    "write HSB",
    "start by reset",
    "start at address",
    "read version",
    "read byte",
    "read HSB",
];
const OF_SSB: [&str; 2] = ["write SSB", "read SSB"];
const LEVELS: [&str; 3] = ["level 0", "level 1", "level 2"];
/// Busy counts that are counted by themselves, before a request and after it.
const LENT: [u16; 7] = [0, 1, 9, 128, 256, 257, 65_535];
const LEFT: [u16; 6] = [0, 1, 9, 64, 128, 256];
const OTHERS: [&str; 2] = ["another up to 256", "another above 256"];
/// What a busy count above 0 meets: those that set it, that clear it, and that keep it.
const MEETS: [&str; 16] = [
    "command",
    "GETSTATUS in 4",
    "stall",
    "stall in 10",
    "ABORT",
    "power-up",
    "GETSTATUS in 3",
    "GETSTATUS elsewhere",
    "GETSTATE",
    "CLRSTATUS",
    "UPLOAD",
    "empty DNLOAD",
    "start by reset",
    "start at address",
    "error status",
    "refusal",
];
const OUTCOMES: [&str; 4] = ["done", "stall", "start by reset", "start at address"];
const REQUESTS: [&str; 8] = ["DETACH", "DNLOAD", "UPLOAD", "GETSTATUS", "CLRSTATUS", "GETSTATE", "ABORT", "other"];

/// The most data of a DNLOAD that is looked at.
const MOST_DATA: usize = 1_103;
/// How many values a byte has.
const BYTES: usize = 256;

/// Things of a kind that have to be reached.
type Wanted = Vec<(&'static str, Vec<String>)>;

#[derive(Default)]
pub struct Tally {
    counts: BTreeMap<&'static str, BTreeMap<String, u64>>,
    /// The board before the request: its state, what is pending, its busy count, and its SSB.
    before: (u8, usize, u16, u8),
    /// The SSB values that each command and an UPLOAD of each thing pending met.
    ssb: BTreeMap<String, BTreeSet<u8>>,
    pub requests: u64,
    pub jobs: u64,
    pub bench_runs: u64,
}

impl Tally {
    pub fn add(&mut self, kind: &'static str, name: impl Into<String>) {
        *self.counts.entry(kind).or_default().entry(name.into()).or_default() += 1;
    }

    pub fn before(&mut self, session: &Session, config: &Config) {
        let state = session.state;
        let pending = usize::from(pending_words(session.pending)[0]);
        self.before = (state, pending, session.busy, config.bytes[SSB]);
        self.add("state before", if STATES.contains(&state) { state.to_string() } else { "none of these".into() });
        self.add("pending before", PENDING[pending]);
        self.add("busy count before", busy_name(&LENT, session.busy));
        let level = match config.level() {
            Level::Zero => 0,
            Level::One => 1,
            Level::Two => 2,
        };
        self.add("level", LEVELS[level]);
    }

    pub fn power_up(&mut self, session: &Session) {
        if session.busy > 0 {
            self.add("busy count above 0 at", "power-up");
        }
    }

    pub fn after(&mut self, request: &Request, answer: &Answer, session: &Session) {
        self.requests += 1;
        if self.before.2 > 0 {
            self.add("busy count above 0 at", self.meets(request, answer, session));
        }
        let outcome = match answer.outcome {
            Outcome::Refused(number) => return self.add("refusal", number.to_string()),
            _ => outcome_name(answer),
        };
        self.add("outcome", outcome);
        self.add("state after", session.state.to_string());
        self.add("status after", format!("{:02X}", session.status));
        self.add("pending after", PENDING[usize::from(pending_words(session.pending)[0])]);
        self.add("busy count after", busy_name(&LEFT, session.busy));
        self.add("pages", answer.pages.to_string());
        self.add("request", request_name(&request.setup));
        if self.before.0 == 4 {
            self.add("asked in state 4", request_name(&request.setup));
        }
        self.level_asked(request, answer.outcome == Outcome::Done && session.state == 3);
    }

    /// A command that a DNLOAD brings in a state that takes one, and what an UPLOAD finds pending in a state that sends: there the
    /// level is asked.
    fn level_asked(&mut self, request: &Request, accepted: bool) {
        let (state, pending, _, ssb) = self.before;
        let asked = request.setup[4..6] == [0, 0] && request.setup[6..] != [0, 0];
        match (request_name(&request.setup), state) {
            ("DNLOAD", 2 | 5) if asked && request.data.len() <= MOST_DATA => {
                if let Reading::Command(command, ..) = second::read_command(&request.data) {
                    let name = COMMANDS[pack_command(&command) as usize & 0xF];
                    self.ssb.entry(of_ssb(&command).unwrap_or(name).into()).or_default().insert(ssb);
                    if accepted {
                        self.add("command accepted", name);
                    }
                }
            }
            ("UPLOAD", 5 | 9) if asked => {
                self.ssb.entry(upload_of(PENDING[pending])).or_default().insert(ssb);
            }
            _ => {}
        }
    }

    /// What a busy count above 0 meets.
    fn meets(&self, request: &Request, answer: &Answer, session: &Session) -> &'static str {
        match (answer.outcome, request_name(&request.setup), self.before.0) {
            (Outcome::Stall, _, 10) => "stall in 10",
            (Outcome::Done, "GETSTATUS", 3) => "GETSTATUS in 3",
            (Outcome::Done, "GETSTATUS", 4) => "GETSTATUS in 4",
            (Outcome::Done, "GETSTATUS", _) => "GETSTATUS elsewhere",
            (Outcome::Done, "DNLOAD", _) if request.data.is_empty() => "empty DNLOAD",
            (Outcome::Done, "DNLOAD", _) => ["error status", "command"][usize::from(session.state == 3)],
            (Outcome::Done, name, _) => name,
            _ => outcome_name(answer),
        }
    }

    /// What a run has to have reached.
    fn wanted() -> Wanted {
        let mut before = numbers(&STATES);
        before.push("none of these".into());
        vec![
            ("outcome", names(&OUTCOMES)),
            ("refusal", numbers(&[1, 2, 3, 4, 5, 6, 7])),
            ("request", names(&REQUESTS)),
            ("state before", before),
            ("state after", numbers(&STATES)),
            ("status after", (0..16).map(|status| format!("{status:02X}")).collect()),
            ("pending before", names(&PENDING)),
            ("pending after", names(&PENDING)),
            ("busy count before", [numbers(&LENT), names(&OTHERS)].concat()),
            ("busy count after", [numbers(&LEFT), names(&OTHERS[..1])].concat()),
            ("busy count above 0 at", names(&MEETS)),
            ("asked in state 4", names(&REQUESTS)),
            ("level", names(&LEVELS)),
            ("command accepted", names(&COMMANDS)),
            ("pages", numbers(&[0, 1, 2, 3, 4, 5, 6, 7, 8, 9, 64, 128, 256])),
            ("reader", names(&["command", "stall", "08h"])),
            ("writer", names(&["written", "refused 8", "refused 9"])),
            ("job", names(&["accepted", "refused 11", "refused 12", "refused 13", "refused 14", "refused 15", "refused 16"])),
        ]
    }

    /// What the run through every state with busy counts has to have reached.
    fn wanted_of_busy() -> Wanted {
        vec![
            ("outcome", names(&OUTCOMES)),
            ("refusal", numbers(&[6, 7])),
            ("status after", names(&["00", "03", "05", "08", "0B", "0F"])),
            ("busy count after", numbers(&LEFT)),
            ("busy count above 0 at", names(&MEETS)),
            ("asked in state 4", names(&REQUESTS)),
            ("level", names(&LEVELS)),
            ("command accepted", names(&COMMANDS)),
            ("pages", numbers(&[0, 1, 9, 64, 128, 256])),
        ]
    }

    /// Prints every count, and gives what was wanted and not reached.
    pub fn report(&self) -> Vec<String> {
        [self.missed(Tally::wanted()), self.missed_ssb()].concat()
    }

    pub fn report_busy(&self) -> Vec<String> {
        self.missed(Tally::wanted_of_busy())
    }

    fn missed(&self, wanted: Wanted) -> Vec<String> {
        let mut missed = Vec::new();
        for (kind, names) in wanted {
            let found = self.counts.get(kind);
            let count = |name: &String| found.and_then(|found| found.get(name)).copied().unwrap_or(0);
            let line: Vec<String> = names.iter().map(|name| format!("{name}: {}", count(name))).collect();
            println!("  {kind}: {}", line.join(", "));
            missed.extend(names.iter().filter(|&name| count(name) == 0).map(|name| format!("{kind} {name}")));
        }
        missed
    }

    /// Prints how many SSB values each command and each UPLOAD met, and gives those that did not meet all of them.
    fn missed_ssb(&self) -> Vec<String> {
        let commands = COMMANDS.iter().chain(&OF_SSB).map(|name| name.to_string());
        let names: Vec<String> = commands.chain(PENDING.iter().map(|name| upload_of(name))).collect();
        let count = |name: &String| self.ssb.get(name).map_or(0, BTreeSet::len);
        let line: Vec<String> = names.iter().map(|name| format!("{name}: {}", count(name))).collect();
        println!("  SSB values: {}", line.join(", "));
        names.iter().filter(|&name| count(name) < BYTES).map(|name| format!("every SSB at {name}")).collect()
    }
}

/// The name of a command that writes or reads SSB itself.
fn of_ssb(command: &Command) -> Option<&'static str> {
    match *command {
        Command::WriteByte { index, .. } if usize::from(index) == SSB => Some(OF_SSB[0]),
        Command::ReadByte(index) if usize::from(index) == SSB => Some(OF_SSB[1]),
        _ => None,
    }
}

fn upload_of(pending: &str) -> String {
    format!("UPLOAD of {pending}")
}

fn outcome_name(answer: &Answer) -> &'static str {
    match answer.outcome {
        Outcome::Done => OUTCOMES[0],
        Outcome::Stall => OUTCOMES[1],
        Outcome::Start { kind: StartKind::Reset, .. } => OUTCOMES[2],
        Outcome::Start { kind: StartKind::Jump, .. } => OUTCOMES[3],
        Outcome::Refused(_) => "refusal",
    }
}

/// A busy count, by itself where it is one of these.
fn busy_name(these: &[u16], busy: u16) -> String {
    if these.contains(&busy) {
        return busy.to_string();
    }
    OTHERS[usize::from(busy > MOST_BUSY)].into()
}

pub fn request_name(setup: &[u8]) -> &'static str {
    match setup {
        [0x21, 0, ..] => "DETACH",
        [0x21, 1, ..] => "DNLOAD",
        [0xA1, 2, ..] => "UPLOAD",
        [0xA1, 3, ..] => "GETSTATUS",
        [0x21, 4, ..] => "CLRSTATUS",
        [0xA1, 5, ..] => "GETSTATE",
        [0x21, 6, ..] => "ABORT",
        _ => "other",
    }
}

fn names(list: &[&str]) -> Vec<String> {
    list.iter().map(|name| name.to_string()).collect()
}

fn numbers<T: ToString>(list: &[T]) -> Vec<String> {
    list.iter().map(T::to_string).collect()
}
