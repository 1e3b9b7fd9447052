//! The serial plug (02, P2): the loader of the AT89C51SND1, one record at a
//! time. "The echo is the serial driver's."

mod answer;
mod change;
mod command;
mod record;

use crate::board::first_not_blank;
use crate::config::Level;
use change::Change;
use command::Command;
use record::{decode, Fault};

pub use record::{read_record, write_record, Read, Written};

/// "65,536 lent bytes of flash".
const FLASH_SIZE: usize = 65_536;

/// The lent flash, once refusal 2 is behind.
type Flash = [u8; FLASH_SIZE];

/// "17 for a character that is no hex digit or a record of wrong length", and
/// "for an unknown type, a backward range or one past FFFFh".
const REFUSED_RECORD: u8 = 17;
/// "9 in place of whichever answer doesn't fit".
const REFUSED_ROOM: u8 = 9;

/// The wrong variant that tries `P` before 17 for a range.
const LEVEL_FIRST: bool = cfg!(feature = "serial-level-before-range");
/// The wrong variant that finds 9 only after the flash was stored.
const STORE_FIRST: bool = cfg!(feature = "serial-room-after-store");

/// The four bytes that the board keeps beside its flash; it may hold any values.
#[derive(Clone, Copy, Debug, PartialEq, Eq)]
pub struct Config {
    /// The boot status byte.
    pub bsb: u8,
    /// The software boot vector.
    pub sbv: u8,
    /// The software security byte.
    pub ssb: u8,
    /// The hardware security byte, with the fuse bits in its high half.
    pub hsb: u8,
}

/// The configuration of a delivered board: "SBV F0h and SSB FCh as delivered",
/// BSB and HSB by tables 1 and 2 of 002.
pub fn delivered() -> Config {
    Config { bsb: 0xFF, sbv: 0xF0, ssb: 0xFC, hsb: 0xBB }
}

/// How a record ended.
#[derive(Clone, Copy, Debug, PartialEq, Eq)]
pub enum Outcome {
    /// Answered with characters, `X` and `P` too.
    Answered,
    /// The application is started by a reset, without an answer.
    StartReset,
    /// The application is started at this address, without an answer.
    StartAt(u16),
    /// Refused, with the number.
    Refused(u8),
}

/// What a record gives back, besides the characters in the room.
#[derive(Clone, Copy, Debug, PartialEq, Eq)]
pub struct Answer {
    /// How it ended.
    pub outcome: Outcome,
    /// How many answer characters stand at the front of the room.
    pub length: usize,
    /// How many flash pages were stored.
    pub pages: usize,
    /// The configuration afterwards.
    pub config: Config,
}

impl Answer {
    const fn empty(config: Config, outcome: Outcome) -> Answer {
        Answer { outcome, length: 0, pages: 0, config }
    }

    const fn refused(config: Config, number: u8) -> Answer {
        Answer::empty(config, Outcome::Refused(number))
    }

    const fn sent(config: Config, length: usize) -> Answer {
        Answer { outcome: Outcome::Answered, length, pages: 0, config }
    }
}

/// Answers one record, its characters from `:` to the checksum. In P2's order:
/// 2, 17 for characters and length, `X`, 17 for type and range, `P`, and 9 in
/// place of an answer that the room does not take. Gives the outcome, the count
/// of answer characters, the count of pages stored and the configuration
/// afterwards; a refusal leaves flash and room alone, and room past the answer
/// stays.
pub fn step(config: Config, record: &[u8], flash: &mut [u8], room: &mut [u8]) -> Answer {
    let Ok(flash) = flash.try_into() else { return Answer::refused(config, 2) };
    let mut bytes = [0; record::BYTES_MOST];
    let fields = match decode(record, &mut bytes) {
        Ok(fields) => fields,
        Err(Fault::Form) => return Answer::refused(config, REFUSED_RECORD),
        Err(Fault::Checksum) => return answer::say(config, *b"X\r\n", room),
    };
    let Some(command) = command::find(&fields) else {
        return Answer::refused(config, REFUSED_RECORD);
    };
    let barred = command.is_barred(Level::of(config.ssb));
    if !command.is_addressed() && !(LEVEL_FIRST && barred) {
        return Answer::refused(config, REFUSED_RECORD);
    }
    if barred {
        return answer::say(config, *b"P\r\n", room);
    }
    obey(config, command, flash, room)
}

/// The command itself, known, within the flash and allowed.
fn obey(config: Config, command: Command, flash: &mut Flash, room: &mut [u8]) -> Answer {
    match command {
        Command::Change(change) => store(config, change, flash, room),
        Command::Display { start, end } => {
            answer::display(config, start, bytes(flash, start, end), room)
        }
        Command::BlankCheck { start, end } => match first_not_blank(flash, start, end) {
            None => answer::say(config, answer::DONE, room),
            Some(address) => answer::say(config, answer::address_line(address), room),
        },
        Command::Read(source) => {
            answer::say(config, answer::value_line(source.value(&config)), room)
        }
        Command::StartReset => Answer::empty(config, Outcome::StartReset),
        Command::StartAt(address) => Answer::empty(config, Outcome::StartAt(address)),
    }
}

/// The bytes of a range, both ends included, that is not backward.
fn bytes(flash: &Flash, start: u16, end: u16) -> &[u8] {
    &flash[usize::from(start)..usize::from(end) + 1]
}

/// Stores the change and answers `.`, once the room is known to take that.
fn store(config: Config, change: Change, flash: &mut Flash, room: &mut [u8]) -> Answer {
    if !STORE_FIRST && room.len() < answer::DONE.len() {
        return Answer::refused(config, REFUSED_ROOM);
    }
    let mut after = config;
    let pages = change.store(&mut after, flash);
    match answer::say(after, answer::DONE, room) {
        Answer { outcome: Outcome::Refused(number), .. } => Answer::refused(config, number),
        answer => Answer { pages, ..answer },
    }
}
