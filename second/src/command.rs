//! The commands in DNLOAD data, with their reader and the host's writer.

use std::ops::Range;

use crate::board::{
    holds_transfer, Block, EepromAddress, FlashAddress, Memory, EEPROM_SIZE, FLASH_LAST, FLASH_SIZE,
};
use crate::config::{is_readable, is_writable};

/// "X being start mod 32".
const PAD_UNIT: usize = if cfg!(feature = "padding-mod-128") { 128 } else { 32 };
/// The wrong variant that reads a program transfer to flash as one to EEPROM.
const EEPROM_FOR_FLASH: bool = cfg!(feature = "program-eeprom-for-flash");
/// The size by which the range of a program transfer to EEPROM is "outside".
const EEPROM_BOUND: usize =
    if cfg!(feature = "eeprom-sized-as-flash") { FLASH_SIZE } else { EEPROM_SIZE };

/// "32 bytes of command (26 not looked at)".
const COMMAND_BYTES: usize = 32;
/// "16 suffix bytes".
const SUFFIX_BYTES: usize = 16;
/// The longest command besides the program transfer, and that one's form.
const HEAD_BYTES: usize = 6;

/// A command, as the table lists them.
#[derive(Clone, Copy, Debug, PartialEq, Eq)]
pub enum Command {
    /// Program a range of flash, both ends included.
    ProgramFlash {
        /// The first address.
        start: FlashAddress,
        /// The last address.
        end: FlashAddress,
    },
    /// Program a range of EEPROM.
    ProgramEeprom {
        /// The first address.
        start: EepromAddress,
        /// The last address.
        end: EepromAddress,
    },
    /// Read a range.
    Read {
        /// The memory to read.
        memory: Memory,
        /// The first address.
        start: u16,
        /// The last address.
        end: u16,
    },
    /// Blank check of a flash range.
    BlankCheck {
        /// The first address.
        start: u16,
        /// The last address.
        end: u16,
    },
    /// Erase one block of flash.
    EraseBlock(Block),
    /// Full chip erase.
    EraseAll,
    /// Write a configuration byte.
    WriteByte {
        /// 00h to 06h where the reader gives it.
        index: u8,
        /// Any value.
        value: u8,
    },
    /// Write the high four bits of HSB.
    WriteHsb(u8),
    /// Start by reset.
    StartReset,
    /// Start at an address.
    StartAt(u16),
    /// Read the bootloader version.
    ReadVersion,
    /// Read a configuration or a fixed byte, by index.
    ReadByte(u8),
    /// Read HSB.
    ReadHsb,
}

impl Command {
    /// Whether "backward, outside, over 1,024 bytes except blank check, or
    /// start above 7FFFh" has no cause.
    pub(crate) const fn is_addressed(&self) -> bool {
        match *self {
            Command::ProgramFlash { start, end } => holds_transfer(FLASH_SIZE, start.0, end.0),
            Command::ProgramEeprom { start, end } => holds_transfer(EEPROM_BOUND, start.0, end.0),
            Command::Read { memory, start, end } => memory.holds_transfer(start, end),
            Command::BlankCheck { start, end } => Memory::Flash.holds(start, end),
            Command::StartAt(address) => address <= FLASH_LAST,
            _ => true,
        }
    }

    /// The ends of a program transfer, which is laid out alike for both memories.
    const fn program_ends(&self) -> Option<(u16, u16)> {
        match *self {
            Command::ProgramFlash { start, end } => Some((start.0, end.0)),
            Command::ProgramEeprom { start, end } => Some((start.0, end.0)),
            _ => None,
        }
    }

    const fn is_indexed(&self) -> bool {
        match *self {
            Command::WriteByte { index, .. } => is_writable(index),
            Command::ReadByte(index) => is_readable(index),
            _ => true,
        }
    }
}

/// What the reader makes of a payload.
#[derive(Clone, Debug, PartialEq, Eq)]
pub enum Reading {
    /// A command; for program with the places of its data and suffix in the
    /// payload, for every other command with two empty places.
    Command(Command, Range<usize>, Range<usize>),
    /// Form or whole length is wrong.
    Stall,
    /// The address is wrong.
    Status08,
}

/// Reads a payload in the order form, address, whole length: "the command,
/// stall or 08h, in that order without the level".
pub fn read_command(payload: &[u8]) -> Reading {
    let Some(command) = form(payload) else {
        return Reading::Stall;
    };
    if !command.is_addressed() {
        return Reading::Status08;
    }
    let Some((start, end)) = command.program_ends() else {
        return Reading::Command(command, 0..0, 0..0);
    };
    let data = data_place(start, end);
    let suffix = data.end..data.end + SUFFIX_BYTES;
    if payload.len() != suffix.end {
        return Reading::Stall;
    }
    Reading::Command(command, data, suffix)
}

/// The command that the form alone gives: "lengths are exact", but of a
/// program transfer "only its first six bytes count as form".
pub(crate) fn form(payload: &[u8]) -> Option<Command> {
    let word = |high, low| u16::from_be_bytes([high, low]);
    Some(match *payload {
        // "The command reader chooses": behind it the case alone tells the memory.
        [0x01, memory @ (0x00 | 0x01), s1, s0, e1, e0, ..] => {
            let (start, end) = (word(s1, s0), word(e1, e0));
            if memory == 0 && !EEPROM_FOR_FLASH {
                Command::ProgramFlash { start: FlashAddress(start), end: FlashAddress(end) }
            } else {
                Command::ProgramEeprom { start: EepromAddress(start), end: EepromAddress(end) }
            }
        }
        [0x03, 0x01, s1, s0, e1, e0] => {
            Command::BlankCheck { start: word(s1, s0), end: word(e1, e0) }
        }
        [0x03, memory @ (0x00 | 0x02), s1, s0, e1, e0] => Command::Read {
            memory: if memory == 0 { Memory::Flash } else { Memory::Eeprom },
            start: word(s1, s0),
            end: word(e1, e0),
        },
        [0x04, 0x00, 0x00] => Command::EraseBlock(Block::First),
        [0x04, 0x00, 0x20] => Command::EraseBlock(Block::Second),
        [0x04, 0x00, 0x40] => Command::EraseBlock(Block::Third),
        [0x04, 0x00, 0xFF] => Command::EraseAll,
        [0x04, 0x01, index, value] if is_writable(index) => Command::WriteByte { index, value },
        [0x04, 0x02, 0x00, value] => Command::WriteHsb(value),
        [0x04, 0x03, 0x00] => Command::StartReset,
        [0x04, 0x03, 0x01, high, low] => Command::StartAt(word(high, low)),
        [0x05, 0x00, 0x00] => Command::ReadVersion,
        [0x05, 0x01, index] if is_readable(index) => Command::ReadByte(index),
        [0x05, 0x02, 0x00] => Command::ReadHsb,
        _ => return None,
    })
}

/// The number X of pad bytes in a program transfer from this start.
pub fn padding(start: u16) -> usize {
    usize::from(start) % PAD_UNIT
}

/// Where "the n bytes" of a program transfer lie, after command and pad.
fn data_place(start: u16, end: u16) -> Range<usize> {
    let from = COMMAND_BYTES + padding(start);
    from..from + usize::from(end - start) + 1
}

/// "at last its whole length": the n bytes, if the transfer is 48 + X + n long.
pub(crate) fn program_data(payload: &[u8], start: u16, end: u16) -> Option<&[u8]> {
    let place = data_place(start, end);
    if payload.len() != place.end + SUFFIX_BYTES {
        return None;
    }
    payload.get(place)
}

/// Writes a command into the room and gives its length; data and suffix are
/// looked at for program only. Refusal 8 comes before 9, and a refused room
/// stays unwritten.
pub fn write_command(
    command: Command,
    data: &[u8],
    suffix: &[u8],
    room: &mut [u8],
) -> Result<usize, u8> {
    if !command.is_addressed() || !command.is_indexed() {
        return Err(8);
    }
    let (head, length) = head(command);
    let Some((start, end)) = command.program_ends() else {
        let room = room.get_mut(..length).ok_or(9)?;
        room.copy_from_slice(&head[..length]);
        return Ok(length);
    };
    let place = data_place(start, end);
    if data.len() != place.len() || suffix.len() != SUFFIX_BYTES {
        return Err(8);
    }
    let whole = place.end + SUFFIX_BYTES;
    let room = room.get_mut(..whole).ok_or(9)?;
    room[..HEAD_BYTES].copy_from_slice(&head);
    // "The writer puts zero in filler and pad."
    room[HEAD_BYTES..place.start].fill(0);
    room[place.clone()].copy_from_slice(data);
    room[place.end..].copy_from_slice(suffix);
    Ok(whole)
}

/// The listed bytes of a command, and how many of them it has.
fn head(command: Command) -> ([u8; HEAD_BYTES], usize) {
    let ranged = |code, sub, start: u16, end: u16| {
        let ([s1, s0], [e1, e0]) = (start.to_be_bytes(), end.to_be_bytes());
        ([code, sub, s1, s0, e1, e0], 6)
    };
    let three = |code, sub, third| ([code, sub, third, 0, 0, 0], 3);
    let four = |sub, index, value| ([0x04, sub, index, value, 0, 0], 4);
    match command {
        Command::ProgramFlash { start, end } => ranged(0x01, 0x00, start.0, end.0),
        Command::ProgramEeprom { start, end } => ranged(0x01, 0x01, start.0, end.0),
        Command::Read { memory, start, end } => {
            ranged(0x03, if memory == Memory::Flash { 0x00 } else { 0x02 }, start, end)
        }
        Command::BlankCheck { start, end } => ranged(0x03, 0x01, start, end),
        Command::EraseBlock(Block::First) => three(0x04, 0x00, 0x00),
        Command::EraseBlock(Block::Second) => three(0x04, 0x00, 0x20),
        Command::EraseBlock(Block::Third) => three(0x04, 0x00, 0x40),
        Command::EraseAll => three(0x04, 0x00, 0xFF),
        Command::WriteByte { index, value } => four(0x01, index, value),
        Command::WriteHsb(value) => four(0x02, 0x00, value),
        Command::StartReset => three(0x04, 0x03, 0x00),
        Command::StartAt(address) => {
            let [high, low] = address.to_be_bytes();
            ([0x04, 0x03, 0x01, high, low, 0], 5)
        }
        Command::ReadVersion => three(0x05, 0x00, 0x00),
        Command::ReadByte(index) => three(0x05, 0x01, index),
        Command::ReadHsb => three(0x05, 0x02, 0x00),
    }
}
