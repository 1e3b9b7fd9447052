//! The configuration bytes and the levels of security.

use crate::command::Command;

/// Index of the boot status byte.
pub const BSB: u8 = 0x00;
/// Index of the software boot vector.
pub const SBV: u8 = 0x01;
/// Index of the software security byte.
pub const SSB: u8 = 0x05;
/// "bootloader version 12h (our choice)".
pub const VERSION: u8 = 0x12;

const MANUFACTURER: u8 = 0x58;
const FAMILY: u8 = 0xD7;
const PRODUCT: u8 = 0xF7;
const REVISION: u8 = 0xDF;

/// "errWRITE" of the source documents.
const ERR_WRITE: u8 = 0x03;
/// "errVENDOR" of the source documents.
const ERR_VENDOR: u8 = 0x0B;

/// The level of a stored SSB that 01 does not name. 02, P1: "a value other than
/// FFh and FEh is level 2".
const ODD: Level = if cfg!(feature = "odd-ssb-is-level-0") { Level::Zero } else { Level::Two };

/// "Configuration, eight bytes"; "the board may hold any eight values".
#[derive(Clone, Copy, Debug, PartialEq, Eq)]
pub struct Config {
    /// BSB, SBV, P1_CF, P3_CF, P4_CF, SSB, EB: index 00h to 06h.
    pub bytes: [u8; 7],
    /// The hardware security byte.
    pub hsb: u8,
}

impl Config {
    /// The "delivery values".
    pub const DELIVERED: Config =
        Config { bytes: [0xFF, 0xFC, 0xFE, 0xFF, 0xFF, 0xFF, 0xFF], hsb: 0xBB };

    /// The level that the stored SSB stands for.
    pub const fn level(&self) -> Level {
        Level::of(self.bytes[SSB as usize])
    }

    /// The byte at a readable index, stored or fixed.
    pub(crate) fn read(&self, index: u8) -> u8 {
        match index {
            0x00..=0x06 => self.bytes[usize::from(index)],
            0x30 => MANUFACTURER,
            0x31 => FAMILY,
            0x60 => PRODUCT,
            _ => REVISION,
        }
    }

    pub(crate) fn write(&mut self, index: u8, value: u8) {
        if let Some(byte) = self.bytes.get_mut(usize::from(index)) {
            *byte = value;
        }
    }

    /// "the high four bits change, the low four stay".
    pub(crate) fn write_hsb(&mut self, value: u8) {
        self.hsb = value & 0xF0 | self.hsb & 0x0F;
    }

    /// "BSB FFh, SBV FCh, SSB FFh ... the other bytes stay".
    pub(crate) fn erase(&mut self) {
        self.write(BSB, 0xFF);
        self.write(SBV, 0xFC);
        self.write(SSB, 0xFF);
    }
}

/// "write configuration byte": index 00h-06h.
pub(crate) const fn is_writable(index: u8) -> bool {
    index <= 0x06
}

/// "read a byte": index 00h-06h, 30h, 31h, 60h, 61h.
pub(crate) const fn is_readable(index: u8) -> bool {
    matches!(index, 0x00..=0x06 | 0x30 | 0x31 | 0x60 | 0x61)
}

/// The three columns of the level table.
#[derive(Clone, Copy, Debug, PartialEq, Eq)]
pub enum Level {
    /// Everything is allowed, but not every SSB value.
    Zero,
    /// No writing of memory.
    One,
    /// No reading of memory either.
    Two,
}

impl Level {
    /// The level that a stored SSB stands for. 01: "SSB FFh is level 0, FEh
    /// level 1, FCh level 2"; 02, P1 for the other values.
    pub(crate) const fn of(ssb: u8) -> Level {
        match ssb {
            0xFF => Level::Zero,
            0xFE => Level::One,
            0xFC => Level::Two,
            _ => ODD,
        }
    }

    /// The status that the level table gives instead of a yes.
    pub(crate) fn forbids(self, command: &Command) -> Option<u8> {
        match (command, self) {
            (
                Command::ProgramFlash { .. }
                | Command::ProgramEeprom { .. }
                | Command::EraseBlock(_)
                | Command::WriteHsb(_),
                Level::One | Level::Two,
            ) => Some(ERR_WRITE),
            (Command::Read { .. } | Command::ReadHsb, Level::Two) => Some(ERR_VENDOR),
            (Command::WriteByte { index: SSB, value }, level) => match (level, value) {
                (Level::Zero, 0xFE | 0xFC) | (Level::One, 0xFC) => None,
                _ => Some(ERR_WRITE),
            },
            _ => None,
        }
    }
}
