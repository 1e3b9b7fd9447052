//! The rows of 002's command tables, their ranges and their levels.

use super::change::{Block, Change, SSB_LEVEL_1, SSB_LEVEL_2};
use super::record::Fields;
use super::{Config, FLASH_SIZE};
use crate::config::Level;

/// The program row "goes from Data\[0\] to Data\[127\]".
const PROGRAM_MOST: usize = 128;

const PROGRAM: u8 = 0x00;
const CONFIGURE: u8 = 0x03;
const LOOK: u8 = 0x04;
const READ: u8 = 0x05;

const MANUFACTURER: u8 = 0x58;
const FAMILY: u8 = 0xD7;
const PRODUCT: u8 = 0xEC;
const REVISION: u8 = 0xFF;
/// Revision 1.1.0, the last that 002 lists.
const VERSION: u8 = 0x11;

/// A command, as the tables list them.
pub(super) enum Command<'a> {
    /// Something is stored, and the answer is `.`.
    Change(Change<'a>),
    /// "Read Flash", both ends included.
    Display { start: u16, end: u16 },
    /// "Blank check on Flash", both ends included.
    BlankCheck { start: u16, end: u16 },
    /// A byte is read.
    Read(Source),
    /// "Start application with a reset pulse generation".
    StartReset,
    /// "Start application with a jump at address".
    StartAt(u16),
}

/// Where a byte is read from.
pub(super) enum Source {
    /// Manufacturer and bootloader information.
    Fixed(u8),
    Ssb,
    Bsb,
    Sbv,
    Hsb,
}

impl Source {
    pub(super) const fn value(&self, config: &Config) -> u8 {
        match *self {
            Source::Fixed(value) => value,
            Source::Ssb => config.ssb,
            Source::Bsb => config.bsb,
            Source::Sbv => config.sbv,
            Source::Hsb => config.hsb,
        }
    }
}

/// The row with this type, length and codes. The load offset is looked at "in
/// program records only".
pub(super) fn find<'a>(fields: &Fields<'a>) -> Option<Command<'a>> {
    match (fields.kind, fields.data) {
        (PROGRAM, bytes) if (1..=PROGRAM_MOST).contains(&bytes.len()) => {
            Some(Command::Change(Change::Program { start: fields.offset, bytes }))
        }
        (CONFIGURE, &[0x03, 0x00]) => Some(Command::StartReset),
        (CONFIGURE, &[0x03, 0x01, high, low]) => {
            Some(Command::StartAt(u16::from_be_bytes([high, low])))
        }
        (CONFIGURE, data) => find_change(data).map(Command::Change),
        (LOOK, &[s1, s0, e1, e0, code @ (0x00 | 0x01)]) => {
            let (start, end) = (u16::from_be_bytes([s1, s0]), u16::from_be_bytes([e1, e0]));
            Some(match code {
                0x00 => Command::Display { start, end },
                _ => Command::BlankCheck { start, end },
            })
        }
        (READ, &[code, index]) => find_source(code, index).map(Command::Read),
        _ => None,
    }
}

/// The rows of type 03h that store something.
fn find_change(data: &[u8]) -> Option<Change<'static>> {
    Some(match *data {
        [0x01, 0x00] => Change::EraseBlock(Block::Zero),
        [0x01, 0x20] => Change::EraseBlock(Block::One),
        [0x01, 0x40] => Change::EraseBlock(Block::Two),
        [0x01, 0x80] => Change::EraseBlock(Block::Three),
        [0x04, 0x00] => Change::EraseBoot,
        [0x05, 0x00] => Change::Ssb(SSB_LEVEL_1),
        [0x05, 0x01] => Change::Ssb(SSB_LEVEL_2),
        [0x06, 0x00, value] => Change::Bsb(value),
        [0x06, 0x01, value] => Change::Sbv(value),
        [0x07] => Change::EraseAll,
        [0x0A, 0x04, value @ (0x00 | 0x01)] => Change::Bljb(value),
        [0x0A, 0x08, value @ (0x00 | 0x01)] => Change::X2(value),
        _ => return None,
    })
}

/// The rows of type 05h.
fn find_source(code: u8, index: u8) -> Option<Source> {
    Some(match (code, index) {
        (0x00, 0x00) => Source::Fixed(MANUFACTURER),
        (0x00, 0x01) => Source::Fixed(FAMILY),
        (0x00, 0x02) => Source::Fixed(PRODUCT),
        (0x00, 0x03) => Source::Fixed(REVISION),
        (0x07, 0x00) => Source::Ssb,
        (0x07, 0x01) => Source::Bsb,
        (0x07, 0x02) => Source::Sbv,
        (0x0B, 0x00) => Source::Hsb,
        // "ID1: Family code", "ID2: Product Name".
        (0x0E, 0x00) => Source::Fixed(FAMILY),
        (0x0E, 0x01) => Source::Fixed(PRODUCT),
        (0x0F, 0x00) => Source::Fixed(VERSION),
        _ => return None,
    })
}

impl Command<'_> {
    /// Whether "a backward range or one past FFFFh" has no cause.
    pub(super) const fn is_addressed(&self) -> bool {
        match *self {
            Command::Change(Change::Program { start, bytes }) => {
                start as usize + bytes.len() <= FLASH_SIZE
            }
            Command::Display { start, end } | Command::BlankCheck { start, end } => start <= end,
            _ => true,
        }
    }

    /// Whether the table of levels has `P` for it at this level.
    pub(super) fn is_barred(&self, level: Level) -> bool {
        match self {
            Command::Change(Change::EraseAll)
            | Command::BlankCheck { .. }
            | Command::Read(Source::Fixed(_) | Source::Ssb)
            | Command::StartReset
            | Command::StartAt(_) => false,
            Command::Change(Change::Ssb(SSB_LEVEL_2))
            | Command::Display { .. }
            | Command::Read(Source::Bsb | Source::Sbv | Source::Hsb) => level == Level::Two,
            Command::Change(_) => level != Level::Zero,
        }
    }
}
