//! The characters of the answers, written straight into the room.

use super::{Answer, Config, REFUSED_ROOM};
use crate::hex::pair;

/// "." & "CR" & "LF".
pub(super) const DONE: [u8; 3] = *b".\r\n";

/// "up to 16 data by line".
const LINE_BYTES: usize = 16;
/// What a line has besides the two digits of each byte: address, `=`, CR, LF.
const LINE_FRAME: usize = 7;
/// The characters of a line of 16 bytes.
const LINE_WHOLE: usize = LINE_FRAME + 2 * LINE_BYTES;

/// Puts these characters into the room, or refuses with 9.
pub(super) fn say<const N: usize>(config: Config, characters: [u8; N], room: &mut [u8]) -> Answer {
    match room.first_chunk_mut() {
        Some(room) => {
            *room = characters;
            Answer::sent(config, N)
        }
        None => Answer::refused(config, REFUSED_ROOM),
    }
}

/// "value" & "." & "CR" & "LF".
pub(super) const fn value_line(value: u8) -> [u8; 5] {
    let [high, low] = pair(value);
    [high, low, b'.', b'\r', b'\n']
}

/// "First Address wrong" "CR" & "LF".
pub(super) const fn address_line(address: u16) -> [u8; 6] {
    let [a, b, c, d] = address_digits(address);
    [a, b, c, d, b'\r', b'\n']
}

/// A line for each 16 bytes, the last with the rest: all of them, or 9.
pub(super) fn display(config: Config, start: u16, bytes: &[u8], room: &mut [u8]) -> Answer {
    let (lines, rest) = bytes.as_chunks::<LINE_BYTES>();
    let whole = lines.len() * LINE_WHOLE;
    let last = if rest.is_empty() { 0 } else { LINE_FRAME + 2 * rest.len() };
    let Some(room) = room.get_mut(..whole + last) else {
        return Answer::refused(config, REFUSED_ROOM);
    };
    let (in_lines, in_rest) = room.split_at_mut(whole);
    let mut address = start;
    for (out, line) in in_lines.as_chunks_mut::<LINE_WHOLE>().0.iter_mut().zip(lines) {
        write_line(address, line, out);
        // Past FFFFh no line follows.
        address = address.wrapping_add(LINE_BYTES as u16);
    }
    if !rest.is_empty() {
        write_line(address, rest, in_rest);
    }
    Answer::sent(config, whole + last)
}

/// "four hex digits of the line's address, `=`, two hex digits for each byte,
/// CR LF, with no spaces".
// In line, so that a line of 16 bytes goes in wide words.
#[inline(always)]
fn write_line(address: u16, bytes: &[u8], out: &mut [u8]) {
    let (head, rest) = out.split_at_mut(5);
    let (digits, end) = rest.split_at_mut(2 * bytes.len());
    let [a, b, c, d] = address_digits(address);
    head.copy_from_slice(&[a, b, c, d, b'=']);
    for (digits, &byte) in digits.as_chunks_mut::<2>().0.iter_mut().zip(bytes) {
        *digits = pair(byte);
    }
    end.copy_from_slice(b"\r\n");
}

const fn address_digits(address: u16) -> [u8; 4] {
    let [high, low] = address.to_be_bytes();
    let ([a, b], [c, d]) = (pair(high), pair(low));
    [a, b, c, d]
}
