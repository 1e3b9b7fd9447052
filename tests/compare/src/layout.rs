//! The second program's values as the numbers of crates/numbers/specs/Layout.antt, and back.

use second::{Block, Command, Config, EepromAddress, FlashAddress, Memory, Outcome, Pending, Session, StartKind};

fn packed(words: [u16; 4]) -> u64 {
    words.iter().rev().fold(0, |n, &word| n << 16 | u64::from(word))
}

fn words(n: u64) -> [u16; 4] {
    [n as u16, (n >> 16) as u16, (n >> 32) as u16, (n >> 48) as u16]
}

/// The kind of what is pending, and its two numbers.
pub fn pending_words(pending: Pending) -> [u16; 3] {
    match pending {
        Pending::Nothing => [0, 0, 0],
        Pending::Read { memory: Memory::Flash, start, end } => [1, start, end],
        Pending::Read { memory: Memory::Eeprom, start, end } => [2, start, end],
        Pending::Blank(address) => [3, address, 0],
        Pending::Byte(value) => [4, u16::from(value), 0],
        Pending::Start { kind: StartKind::Reset, address } => [5, address, 0],
        Pending::Start { kind: StartKind::Jump, address } => [6, address, 0],
    }
}

/// The number of a session, which has no room for its busy count.
pub fn pack_session(session: &Session) -> u64 {
    let [kind, first, last] = pending_words(session.pending);
    packed([u16::from_le_bytes([session.state, session.status]), kind, first, last])
}

/// The session of a number and a busy count.
pub fn session(n: u64, busy: u16) -> Session {
    let [head, kind, first, last] = words(n);
    let [state, status] = head.to_le_bytes();
    let pending = match kind {
        1 => Pending::Read { memory: Memory::Flash, start: first, end: last },
        2 => Pending::Read { memory: Memory::Eeprom, start: first, end: last },
        3 => Pending::Blank(first),
        4 => Pending::Byte(first as u8),
        5 => Pending::Start { kind: StartKind::Reset, address: first },
        6 => Pending::Start { kind: StartKind::Jump, address: first },
        _ => Pending::Nothing,
    };
    Session { state, status, pending, busy }
}

pub fn pack_config(config: &Config) -> u64 {
    let mut bytes = [0; 8];
    bytes[..7].copy_from_slice(&config.bytes);
    bytes[7] = config.hsb;
    u64::from_le_bytes(bytes)
}

pub fn config(n: u64) -> Config {
    let [bytes @ .., hsb] = n.to_le_bytes();
    Config { bytes, hsb }
}

pub fn pack_outcome(outcome: &Outcome) -> u64 {
    match *outcome {
        Outcome::Done => packed([0, 0, 0, 0]),
        Outcome::Stall => packed([1, 0, 0, 0]),
        Outcome::Start { kind: StartKind::Reset, address } => packed([2, address, 0, 0]),
        Outcome::Start { kind: StartKind::Jump, address } => packed([3, address, 0, 0]),
        Outcome::Refused(number) => packed([4, u16::from(number), 0, 0]),
    }
}

pub fn pack_command(command: &Command) -> u64 {
    let eeprom = |memory| u16::from(memory == Memory::Eeprom);
    packed(match *command {
        Command::ProgramFlash { start, end } => [0, start.0, end.0, 0],
        Command::ProgramEeprom { start, end } => [1, start.0, end.0, 0],
        Command::Read { memory, start, end } => [2 + eeprom(memory), start, end, 0],
        Command::BlankCheck { start, end } => [4, start, end, 0],
        Command::EraseBlock(Block::First) => [5, 0, 0, 0],
        Command::EraseBlock(Block::Second) => [6, 0, 0, 0],
        Command::EraseBlock(Block::Third) => [7, 0, 0, 0],
        Command::EraseAll => [8, 0, 0, 0],
        Command::WriteByte { index, value } => [9, u16::from(index), u16::from(value), 0],
        Command::WriteHsb(value) => [10, u16::from(value), 0, 0],
        Command::StartReset => [11, 0, 0, 0],
        Command::StartAt(address) => [12, address, 0, 0],
        Command::ReadVersion => [13, 0, 0, 0],
        Command::ReadByte(index) => [14, u16::from(index), 0, 0],
        Command::ReadHsb => [15, 0, 0, 0],
    })
}

pub fn command(n: u64) -> Command {
    let [kind, first, last, _] = words(n);
    let (start, end) = (first, last);
    match kind {
        0 => Command::ProgramFlash { start: FlashAddress(start), end: FlashAddress(end) },
        1 => Command::ProgramEeprom { start: EepromAddress(start), end: EepromAddress(end) },
        2 => Command::Read { memory: Memory::Flash, start, end },
        3 => Command::Read { memory: Memory::Eeprom, start, end },
        4 => Command::BlankCheck { start, end },
        5 => Command::EraseBlock(Block::First),
        6 => Command::EraseBlock(Block::Second),
        7 => Command::EraseBlock(Block::Third),
        8 => Command::EraseAll,
        9 => Command::WriteByte { index: first as u8, value: last as u8 },
        10 => Command::WriteHsb(first as u8),
        11 => Command::StartReset,
        12 => Command::StartAt(first),
        13 => Command::ReadVersion,
        14 => Command::ReadByte(first as u8),
        _ => Command::ReadHsb,
    }
}
