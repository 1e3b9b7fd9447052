//! Records and boards, mostly right and often wrong by a little.

use super::rows::{characters, display_size, range, summing_to, ROWS};
use super::{layout, Fill, Record, Sequence, Step, FLASH, GUARD, MOST_ROOM};
use crate::random::Random;

/// Addresses at an edge of something.
pub const EDGES: [u16; 22] = [
    0x0000, 0x0001, 0x000F, 0x0010, 0x007F, 0x0080, 0x0081, 0x00FF, 0x0100, 0x1FFF, 0x2000, 0x3FFF, 0x4000, 0x7FFE, 0x7FFF, 0x8000,
    0xFF7F, 0xFF80, 0xFF81, 0xFFF0, 0xFFFE, 0xFFFF,
];
pub const COUNTS: [usize; 12] = [1, 2, 15, 16, 17, 32, 33, 64, 126, 127, 128, 20];
/// Mostly level 0, at which most commands are taken. The walks go through the rest.
const SSB_VALUES: [u8; 9] = [0xFF, 0xFF, 0xFF, 0xFF, 0xFE, 0xFE, 0xFC, 0xFD, 0x00];
/// The first value of SSB that is level 1, and the only one that is level 0.
const LEVEL_1: u8 = 0xFE;

pub fn address(random: &mut Random) -> u16 {
    if random.chance(50) {
        random.of(&EDGES)
    } else {
        random.word()
    }
}

/// A room of about the size that is needed, any small one, or a large one.
pub fn room(random: &mut Random, need: usize) -> usize {
    match random.below(12) {
        0..=1 => random.below(8),
        2 => need.saturating_sub(1),
        3 => need,
        4 => need + 1,
        5 => random.below(need + 1),
        _ => (need + random.below(600)).max(7),
    }
    .min(MOST_ROOM)
}

/// A record as it is, with all of the flash.
pub fn record(characters: Vec<u8>, room: usize, aim: &'static str) -> Record {
    Record { characters, flash: FLASH, room, aim }
}

/// A start and an end, mostly not far from each other.
fn places(random: &mut Random) -> (u16, u16) {
    let start = address(random);
    match random.below(24) {
        0 => (start, random.word()),
        1 => (start, start.wrapping_sub(1)),
        2 => (0x0000, 0xFFFF),
        3..=5 => (start, start),
        _ => (start, start.saturating_add(random.below(100) as u16)),
    }
}

fn program(random: &mut Random) -> Record {
    let start = address(random);
    let left = FLASH - usize::from(start);
    let (count, aim) = match random.below(16) {
        0 => (0, "program of no data"),
        1 => (129 + random.below(127), "program of too much data"),
        2 if left < 128 => (left + 1, "past FFFFh"),
        _ => (random.of(&COUNTS).min(left), "program"),
    };
    let data = if random.chance(10) { vec![0xFF; count] } else { random.bytes(count) };
    record(characters(start, 0, &data), room(random, 3), aim)
}

fn ranged(random: &mut Random, code: u8) -> Record {
    let (start, end) = places(random);
    let aim = match code {
        _ if end < start => "backward range",
        0 => "display",
        _ => "blank check",
    };
    let need = if code == 0 { display_size((start, end)) } else { 6 };
    record(characters(random.word(), 4, &range((start, end), code)), room(random, need), aim)
}

/// A row of type 03h or 05h.
pub fn row_record(random: &mut Random, at: usize) -> Record {
    let row = &ROWS[at];
    let data = [row.codes.to_vec(), random.bytes(row.more)].concat();
    record(characters(random.word(), row.kind, &data), room(random, 5), row.name)
}

/// A record that no table has.
fn unlisted(random: &mut Random) -> Record {
    let row = &ROWS[random.below(ROWS.len())];
    let mut data = [row.codes.to_vec(), random.bytes(row.more)].concat();
    let (kind, aim) = match random.below(6) {
        0 => (random.of(&[1, 2, 6, 7, 0x10, 0x83, 0xFF]), "unknown type"),
        1 => {
            data.push(random.byte());
            (row.kind, "a byte of data too many")
        }
        2 => {
            data.pop();
            (row.kind, "a byte of data too few")
        }
        3 => {
            data = vec![0x0A, random.of(&[4, 8]), 2 + random.below(254) as u8];
            (3, "bit value")
        }
        4 => {
            data = range(places(random), 2 + random.below(254) as u8);
            (4, "unlisted code")
        }
        _ => {
            data[0] = random.byte();
            (row.kind, "unlisted code")
        }
    };
    record(characters(random.word(), kind, &data), room(random, 5), aim)
}

fn plain(random: &mut Random, ssb: u8) -> Record {
    let erase_chip = 4;
    match random.below(100) {
        0..=24 if ssb < LEVEL_1 => row_record(random, erase_chip),
        0..=24 => program(random),
        25..=36 => ranged(random, 0),
        37..=46 => ranged(random, 1),
        47..=89 => {
            let at = random.below(ROWS.len());
            row_record(random, at)
        }
        90..=97 => unlisted(random),
        _ => {
            let count = random.below(256);
            let data = random.bytes(count);
            record(characters(random.word(), random.of(&[0, 3, 4, 5, 9]), &data), room(random, 40), "any data")
        }
    }
}

/// The letters of the digits in another size.
pub fn letters(random: &mut Random, record: &mut Record) {
    let all = random.chance(50);
    for character in &mut record.characters {
        if all || random.chance(50) {
            *character = character.to_ascii_lowercase();
        }
    }
}

/// Puts these characters in the place of as many as are left out there, and gives the aim.
fn put(characters: &mut Vec<u8>, place: std::ops::Range<usize>, with: &[u8], aim: &'static str) -> &'static str {
    characters.splice(place, with.iter().copied());
    aim
}

/// Something is wrong with it: a character, the mark, the length, or what is lent.
fn damage(random: &mut Random, record: &mut Record) {
    let all = &mut record.characters;
    let checksum = all.len() - 2;
    let at = 1 + random.below(all.len() - 1);
    record.aim = match random.below(11) {
        0..=1 => put(all, at..at + 1, &[random.of(b"0123456789ABCDEFabcdef")], "another digit"),
        2 => put(all, at..at + 1, &[random.of(b"/:@G`g \r\n\0\xFF.xX")], "no digit"),
        3 => put(all, at..at + 1, &[random.byte()], "any character"),
        4 => put(all, 0..1, &[random.of(b"0;9 \n\xBA")], "mark"),
        5 => put(all, 0..1, b"", "mark missing"),
        6 => put(all, at..at + 1, b"", "a character too few"),
        7 => put(all, at..at, b"0", "a character too many"),
        8 => put(all, checksum..checksum + 2, b"", "a pair too few"),
        // The sum stays right.
        9 => put(all, checksum..checksum, b"00", "a pair too many"),
        _ => {
            record.flash = random.of(&[0, 1, FLASH / 2, FLASH - 1, FLASH + 1, FLASH + GUARD]);
            "size of flash"
        }
    };
}

/// A right record but for its sum.
fn wrong_sum(random: &mut Random) -> Record {
    let (start, count) = (address(random), random.below(20));
    let data = random.bytes(count);
    let total = 1 + random.below(255) as u8;
    record(summing_to(total, start, random.of(&[0, 3, 4, 5, 7]), &data), room(random, 3), "checksum")
}

pub fn config(random: &mut Random) -> u32 {
    let ssb = if random.chance(90) { random.of(&SSB_VALUES) } else { random.byte() };
    of_ssb(random, ssb)
}

/// A configuration of this SSB.
pub fn of_ssb(random: &mut Random, ssb: u8) -> u32 {
    let [bsb, sbv] = random.word().to_le_bytes();
    u32::from_le_bytes([bsb, sbv, ssb, random.byte()])
}

/// What comes next on a board of this SSB.
pub fn step(random: &mut Random, ssb: u8) -> Step {
    match random.below(100) {
        0..=3 => return Step::Config(config(random)),
        4..=5 => return Step::Byte(address(random), random.byte()),
        6..=8 => return Step::Take(wrong_sum(random)),
        _ => {}
    }
    let mut next = plain(random, ssb);
    if random.chance(30) {
        letters(random, &mut next);
    }
    if random.chance(12) {
        damage(random, &mut next);
    }
    Step::Take(next)
}

/// A sequence's board; its steps are made as it runs.
pub fn board(random: &mut Random) -> Sequence {
    let fill = match random.below(6) {
        0..=1 => Fill::Blank,
        2..=4 => Fill::Places(random.next()),
        _ => Fill::Any(random.next()),
    };
    let delivered = layout::pack_config(&second::serial::delivered());
    Sequence { config: if random.chance(30) { delivered } else { config(random) }, fill, steps: vec![] }
}
