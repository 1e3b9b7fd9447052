//! A board and what happens to it, run through both programs.

use crate::layout;
use crate::random::Random;
use crate::tally::Tally;
use second::{Config, Outcome, Session};

/// The session after power-up; its busy count is 0.
pub const IDLE: u64 = 2;
pub const FLASH: usize = 32_768;
pub const EEPROM: usize = 1_024;
pub const REPLY: usize = 1_024;
/// What is lent may be longer than it should be, and stands in a buffer that is longer still.
pub const ROOM: usize = 64;

/// What the memories hold at first.
#[derive(Clone, Copy, Debug, PartialEq)]
pub enum Fill {
    Blank,
    /// Blank but for one byte of flash.
    Used(u16),
    /// Anything, from a seed.
    Any(u64),
}

#[derive(Clone, Debug, PartialEq)]
pub struct Request {
    pub setup: Vec<u8>,
    pub data: Vec<u8>,
    pub flash: usize,
    pub eeprom: usize,
    pub reply: usize,
}

#[derive(Clone, Debug, PartialEq)]
pub enum Step {
    Ask(Request),
    PowerUp,
    /// The session but for its busy count, that count, or the configuration is set to any number.
    Session(u64),
    Busy(u16),
    Config(u64),
}

#[derive(Clone, Debug, PartialEq)]
pub struct Sequence {
    pub session: u64,
    pub busy: u16,
    pub config: u64,
    pub fill: Fill,
    pub steps: Vec<Step>,
}

/// Both boards, alike before every step.
pub struct Pair {
    session: u64,
    busy: u16,
    config: u64,
    flash: Vec<u8>,
    eeprom: Vec<u8>,
    reply: Vec<u8>,
    pub second: Second,
}

pub struct Second {
    pub session: Session,
    pub config: Config,
    flash: Vec<u8>,
    eeprom: Vec<u8>,
    reply: Vec<u8>,
}

impl Second {
    /// A board with room beyond its memories.
    pub fn new(session: u64, busy: u16, config: u64, fill: Fill) -> Second {
        let (mut flash, mut eeprom) = (vec![0xFF; FLASH + ROOM], vec![0xFF; EEPROM + ROOM]);
        match fill {
            Fill::Blank => {}
            Fill::Used(at) => flash[usize::from(at) % FLASH] = 0x5A,
            Fill::Any(seed) => {
                let mut random = Random::new(seed);
                for eight in flash.chunks_exact_mut(8).chain(eeprom.chunks_exact_mut(8)) {
                    eight.copy_from_slice(&random.next().to_le_bytes());
                }
            }
        }
        let reply = (0..REPLY + ROOM).map(|i| i as u8 ^ 0xA5).collect();
        Second { session: layout::session(session, busy), config: layout::config(config), flash, eeprom, reply }
    }

    pub fn ask(&mut self, request: &Request) -> second::Answer {
        second::step(
            &mut self.session,
            &mut self.config,
            &request.setup,
            &request.data,
            &mut self.flash[..request.flash],
            &mut self.eeprom[..request.eeprom],
            &mut self.reply[..request.reply],
        )
    }
}

/// Where two memories first differ.
pub fn place(name: &str, ours: &[u8], second: &[u8]) -> Option<String> {
    let at = if ours == second { None } else { ours.iter().zip(second).position(|(a, b)| a != b) };
    at.map(|at| format!("{name} at {at:04X}h: ours {:02X}h, second {:02X}h", ours[at], second[at]))
}

pub fn number(name: &str, ours: u64, second: u64) -> Option<String> {
    (ours != second).then(|| format!("{name}: ours {ours:X}h, second {second:X}h"))
}

impl Pair {
    /// A sequence's boards before its first step.
    pub fn new(sequence: &Sequence) -> Pair {
        let &Sequence { session, busy, config, fill, .. } = sequence;
        let second = Second::new(session, busy, config, fill);
        let (flash, eeprom, reply) = (second.flash.clone(), second.eeprom.clone(), second.reply.clone());
        Pair { session, busy, config, flash, eeprom, reply, second }
    }

    /// Takes one step with both, and gives the first difference.
    pub fn take(&mut self, step: &Step, tally: &mut Tally) -> Option<String> {
        // A number that was set may not be the one that packs what it counts as, so it is compared after the next request. Refused, it
        // has to stay as it was lent.
        match step {
            Step::Ask(request) => return self.ask(request, tally),
            Step::PowerUp => {
                tally.power_up(&self.second.session);
                (self.session, self.busy) = exports::power_up();
                second::power_up(&mut self.second.session);
            }
            Step::Session(n) => {
                self.session = *n;
                self.second.session = layout::session(*n, self.second.session.busy);
                return None;
            }
            Step::Busy(n) => {
                self.busy = *n;
                self.second.session.busy = *n;
                return None;
            }
            Step::Config(n) => {
                self.config = *n;
                self.second.config = layout::config(*n);
                return None;
            }
        }
        self.boards(self.packed())
    }

    /// The second program's session, busy count and configuration as numbers.
    fn packed(&self) -> (u64, u16, u64) {
        let Second { session, config, .. } = &self.second;
        (layout::pack_session(session), session.busy, layout::pack_config(config))
    }

    fn ask(&mut self, request: &Request, tally: &mut Tally) -> Option<String> {
        let lent = (self.session, self.busy, self.config);
        let (outcome, count, pages) = exports::step(
            &mut self.session,
            &mut self.busy,
            &mut self.config,
            &request.setup,
            &request.data,
            &mut self.flash[..request.flash],
            &mut self.eeprom[..request.eeprom],
            &mut self.reply[..request.reply],
        );
        tally.before(&self.second.session, &self.second.config);
        let answer = self.second.ask(request);
        tally.after(request, &answer, &self.second.session);
        let expected = if matches!(answer.outcome, Outcome::Refused(_)) { lent } else { self.packed() };
        number("outcome", outcome, layout::pack_outcome(&answer.outcome))
            .or_else(|| number("bytes sent", count as u64, answer.length as u64))
            .or_else(|| number("pages", pages as u64, answer.pages as u64))
            .or_else(|| self.boards(expected))
    }

    /// Session, busy count, configuration, and every byte of the reply and both memories.
    fn boards(&self, (session, busy, config): (u64, u16, u64)) -> Option<String> {
        let second = &self.second;
        number("session", self.session, session)
            .or_else(|| number("busy count", self.busy.into(), busy.into()))
            .or_else(|| number("configuration", self.config, config))
            .or_else(|| place("reply", &self.reply, &second.reply))
            .or_else(|| place("flash", &self.flash, &second.flash))
            .or_else(|| place("EEPROM", &self.eeprom, &second.eeprom))
    }
}

/// Where a sequence first differs: the place of the step, the second program's session before it, and the difference.
pub struct Difference {
    pub at: usize,
    pub session: Session,
    pub what: String,
}

impl Sequence {
    /// Runs it through both.
    pub fn run(&self, tally: &mut Tally) -> Option<Difference> {
        let mut pair = Pair::new(self);
        self.steps.iter().enumerate().find_map(|(at, step)| {
            let session = pair.second.session;
            pair.take(step, tally).map(|what| Difference { at, session, what })
        })
    }
}
