//! The record of 002's table 4, with its reader and its writer.

use super::{REFUSED_RECORD, REFUSED_ROOM};
use crate::hex::pair;

/// "Record Mark ':'".
const MARK: u8 = b':';
/// Record length, load offset (two bytes), record type.
const HEAD_BYTES: usize = 4;
/// The most that the record length field can say.
const DATA_MOST: usize = 255;
/// The most bytes of a record, its checksum with them.
pub(super) const BYTES_MOST: usize = HEAD_BYTES + DATA_MOST + 1;
/// "11 + 2n" characters with no data: the mark, and two for each other byte.
const CHARACTERS_LEAST: usize = 1 + 2 * (HEAD_BYTES + 1);

/// In [`VALUES`]: the character is no hex digit. No digit has one of its high bits.
const NO_DIGIT: u8 = 0xF0;

/// "Character values come from a table of 256 entries, one for each character";
/// "small letters are accepted".
static VALUES: [u8; 256] = {
    let mut values = [NO_DIGIT; 256];
    let mut value = 0;
    while value < 16 {
        values[b"0123456789ABCDEF"[value] as usize] = value as u8;
        values[b"0123456789abcdef"[value] as usize] = value as u8;
        value += 1;
    }
    values
};

/// The fields of a record whose checksum is right.
pub(super) struct Fields<'a> {
    pub(super) offset: u16,
    pub(super) kind: u8,
    pub(super) data: &'a [u8],
}

/// Why characters are no record.
pub(super) enum Fault {
    /// A character or the length is wrong.
    Form,
    /// The sum of all bytes is not zero.
    Checksum,
}

/// Turns the characters into bytes, in one pass, and finds the fields in them.
#[inline]
pub(super) fn decode<'a>(
    record: &[u8],
    bytes: &'a mut [u8; BYTES_MOST],
) -> Result<Fields<'a>, Fault> {
    let [MARK, digits @ ..] = record else { return Err(Fault::Form) };
    let (pairs, odd) = digits.as_chunks::<2>();
    let Some(bytes) = bytes.get_mut(..pairs.len()) else { return Err(Fault::Form) };
    let (mut seen, mut sum) = (0, 0_u8);
    for (byte, &[high, low]) in bytes.iter_mut().zip(pairs) {
        let (high, low) = (VALUES[usize::from(high)], VALUES[usize::from(low)]);
        seen |= high | low;
        *byte = high << 4 | low;
        sum = sum.wrapping_add(*byte);
    }
    let &mut [length, o1, o0, kind, ref data @ .., _] = bytes else { return Err(Fault::Form) };
    if seen & NO_DIGIT != 0 || !odd.is_empty() || data.len() != usize::from(length) {
        return Err(Fault::Form);
    }
    if sum != 0 {
        return Err(Fault::Checksum);
    }
    Ok(Fields { offset: u16::from_be_bytes([o1, o0]), kind, data })
}

/// What the reader makes of a record.
#[derive(Clone, Copy, Debug, PartialEq, Eq)]
pub enum Read {
    /// The fields; the data bytes stand at the front of the room.
    Fields {
        /// The load offset.
        offset: u16,
        /// The record type, known or not.
        kind: u8,
        /// How many data bytes there are.
        length: usize,
    },
    /// The sum of all bytes is not zero.
    WrongChecksum,
    /// Refused, with the number.
    Refused(u8),
}

/// Reads a record's characters and puts its data into the room: 17 for a
/// character or the length, then the checksum, then 9 where the data do not
/// fit. Gives the other fields and the count of data bytes; the room stays
/// unwritten past them, and whole where there are no fields.
pub fn read_record(record: &[u8], room: &mut [u8]) -> Read {
    let mut bytes = [0; BYTES_MOST];
    match decode(record, &mut bytes) {
        Ok(Fields { offset, kind, data }) => match room.get_mut(..data.len()) {
            Some(room) => {
                room.copy_from_slice(data);
                Read::Fields { offset, kind, length: data.len() }
            }
            None => Read::Refused(REFUSED_ROOM),
        },
        Err(Fault::Form) => Read::Refused(REFUSED_RECORD),
        Err(Fault::Checksum) => Read::WrongChecksum,
    }
}

/// What the writer gives back.
#[derive(Clone, Copy, Debug, PartialEq, Eq)]
pub enum Written {
    /// How many characters stand at the front of the room.
    Characters(usize),
    /// Refused, with the number.
    Refused(u8),
}

/// Writes a record with its checksum, in capitals, into the room: 17 where the
/// data are over 255 bytes, then 9 where the record does not fit. Gives the
/// count of characters; a refused room stays unwritten, and so does the room
/// past the record.
pub fn write_record(offset: u16, kind: u8, data: &[u8], room: &mut [u8]) -> Written {
    let Ok(length) = u8::try_from(data.len()) else {
        return Written::Refused(REFUSED_RECORD);
    };
    let characters = CHARACTERS_LEAST + 2 * data.len();
    let Some([mark, digits @ ..]) = room.get_mut(..characters) else {
        return Written::Refused(REFUSED_ROOM);
    };
    *mark = MARK;
    let [o1, o0] = offset.to_be_bytes();
    let head = [length, o1, o0, kind];
    let sum = head.iter().chain(data).fold(0_u8, |sum, &byte| sum.wrapping_add(byte));
    let (pairs, _) = digits.as_chunks_mut::<2>();
    let (in_head, pairs) = pairs.split_at_mut(HEAD_BYTES);
    let (in_data, in_checksum) = pairs.split_at_mut(data.len());
    write_pairs(&head, in_head);
    write_pairs(data, in_data);
    // "The two's complement", so that the sum with it is zero.
    write_pairs(&[sum.wrapping_neg()], in_checksum);
    Written::Characters(characters)
}

fn write_pairs(bytes: &[u8], pairs: &mut [[u8; 2]]) {
    for (digits, &byte) in pairs.iter_mut().zip(bytes) {
        *digits = pair(byte);
    }
}
