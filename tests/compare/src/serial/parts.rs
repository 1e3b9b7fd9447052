//! The record reader and the record writer, each against the second program's and against each other.

use super::rows::characters;
use super::{Tally, GUARD};
use crate::random::Random;
use crate::sequence::place;
use second::serial::{Read, Written};

/// What a room and the three numbers hold before anything is read or written.
const UNWRITTEN: u8 = 0xC3;
const UNTOLD: (u16, u8, usize) = (0xA55A, 0x3C, 0x1234_5678);
/// The most data of a record, and what the writer is handed at most.
const MOST_DATA: usize = 255;
const MOST_HANDED: usize = 300;

/// Whether the letters of a record are capital or small.
fn letters(record: &[u8]) -> Option<&'static str> {
    let (capital, small) = (record.iter().any(u8::is_ascii_uppercase), record.iter().any(u8::is_ascii_lowercase));
    match (capital, small) {
        (true, true) => Some("of both sizes"),
        (true, false) => Some("capital"),
        (false, true) => Some("small"),
        _ => None,
    }
}

/// Reads characters with both, in a room of this size; what was read is written again.
pub fn read_difference(record: &[u8], size: usize, tally: &mut Tally) -> Option<String> {
    let (mut ours, mut second) = (vec![UNWRITTEN; size + GUARD], vec![UNWRITTEN; size + GUARD]);
    let (mut offset, mut kind, mut count) = UNTOLD;
    let answer = exports::serial::read_record(record, &mut ours[..size], &mut offset, &mut kind, &mut count);
    let read = second::serial::read_record(record, &mut second[..size]);
    let (expected, name) = match read {
        Read::Fields { offset, kind, length } => ((0, (offset, kind, length)), "taken".to_string()),
        Read::WrongChecksum => ((1, UNTOLD), "wrong checksum".to_string()),
        Read::Refused(number) => ((number, UNTOLD), format!("refused {number}")),
    };
    tally.add("reader", name);
    let told = (answer, (offset, kind, count));
    let what = if told == expected { place("room", &ours, &second) } else { Some(format!("ours {told:X?}, second {expected:X?}")) };
    if let Some(what) = what {
        return Some(format!("reader of {:?}, room {size}: {what}", String::from_utf8_lossy(record)));
    }
    if answer == 0 {
        tally.add_length("read", count);
        letters(record).into_iter().for_each(|name| tally.add("letters", name));
        return back(record, offset, kind, &ours[..count]);
    }
    None
}

/// A record that was read is written back in capitals, character for character.
fn back(record: &[u8], offset: u16, kind: u8, data: &[u8]) -> Option<String> {
    let mut room = vec![UNWRITTEN; record.len()];
    let told = exports::serial::write_record(offset, kind, data, &mut room);
    let right = told == (0, record.len()) && room == record.to_ascii_uppercase();
    (!right).then(|| format!("{:?} is written back as {:?}", String::from_utf8_lossy(record), String::from_utf8_lossy(&room)))
}

/// Writes with both, so many bytes of any value, in a room of this size.
pub fn write_difference(random: &mut Random, bytes: usize, size: usize, tally: &mut Tally) -> Option<String> {
    let (offset, kind, data) = (random.word(), random.byte(), random.bytes(bytes));
    let (mut ours, mut second) = (vec![UNWRITTEN; size + GUARD], vec![UNWRITTEN; size + GUARD]);
    let told = exports::serial::write_record(offset, kind, &data, &mut ours[..size]);
    let expected = match second::serial::write_record(offset, kind, &data, &mut second[..size]) {
        Written::Characters(count) => (0, count),
        Written::Refused(number) => (number, 0),
    };
    tally.add("writer", if expected.0 == 0 { "written".to_string() } else { format!("refused {}", expected.0) });
    if expected.0 == 0 {
        tally.add_length("written", bytes);
    }
    let what = if told == expected { place("room", &ours, &second) } else { Some(format!("ours {told:?}, second {expected:?}")) };
    what.map(|what| format!("writer of offset {offset:04X}h, type {kind:02X}h, {data:02X?}, room {size}: {what}"))
}

/// Every size of data, in rooms of about the size that is needed.
pub fn walk(tally: &mut Tally) -> Option<String> {
    let mut random = Random::new(0);
    for count in 0..=MOST_HANDED {
        let need = 11 + 2 * count;
        for size in [0, 1, need - 1, need, need + 1, need + 300] {
            let what = write_difference(&mut random, count, size, tally);
            if what.is_some() {
                return what;
            }
        }
        let record = characters(random.word(), random.byte(), &random.bytes(count.min(MOST_DATA)));
        for size in [0, count.saturating_sub(1), count, count + 1, count + 300] {
            let what = read_difference(&record, size, tally);
            if what.is_some() {
                return what;
            }
        }
    }
    None
}
