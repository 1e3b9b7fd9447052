//! The reader and the writer, each against the other and against the second program's.

use crate::layout;
use crate::random::Random;
use crate::tally::Tally;
use second::{Command, Reading};

/// What a room holds before it is written.
const UNWRITTEN: u8 = 0xC3;
/// The suffix bytes of a program transfer.
const SUFFIX: usize = 16;

/// What was handed to a writer.
#[derive(Clone, Debug, PartialEq)]
pub struct Writing {
    pub command: u64,
    pub body: Vec<u8>,
    pub suffix: Vec<u8>,
    pub room: usize,
}

impl Writing {
    /// Writes with both: the room and how many bytes of it, or what differs.
    fn write(&self, tally: &mut Tally) -> Result<(Vec<u8>, usize), String> {
        let (mut ours, mut second) = (vec![UNWRITTEN; self.room], vec![UNWRITTEN; self.room]);
        let (answer, count) = exports::write_command(self.command, &self.body, &self.suffix, &mut ours);
        let wrote = second::write_command(layout::command(self.command), &self.body, &self.suffix, &mut second);
        tally.add("writer", wrote.map_or_else(|number| format!("refused {number}"), |_| "written".into()));
        let expected = wrote.map_or_else(|number| (number, 0), |count| (0, count));
        if (answer, count) != expected {
            return Err(format!("writer: ours {:?}, second {expected:?}", (answer, count)));
        }
        if ours != second {
            return Err(format!("writer's room: ours {ours:02X?}, second {second:02X?}"));
        }
        Ok((ours, count))
    }

    pub fn difference(&self, tally: &mut Tally) -> Option<String> {
        self.write(tally).err()
    }
}

/// Reads a payload with both; what was read is written again with both, and read once more.
pub fn difference(payload: &[u8], tally: &mut Tally) -> Option<String> {
    let (answer, command, body, suffix) = exports::read_command(payload);
    let reading = second::read_command(payload);
    let (expected, name) = match reading {
        Reading::Command(..) => (0x00, "command"),
        Reading::Stall => (0x0F, "stall"),
        Reading::Status08 => (0x08, "08h"),
    };
    tally.add("reader", name);
    if answer != expected {
        return Some(format!("reader: ours {answer:02X}h, second {expected:02X}h"));
    }
    let Reading::Command(read, data_place, suffix_place) = reading else { return None };
    if command != layout::pack_command(&read) {
        return Some(format!("command read: ours {command:X}h, second {:X}h", layout::pack_command(&read)));
    }
    // A command without data and suffix has two empty places: ours at the payload's end, the second's at its front.
    let places = match read {
        Command::ProgramFlash { .. } | Command::ProgramEeprom { .. } => (data_place.start, suffix_place.start),
        _ => (payload.len(), payload.len()),
    };
    if (body, suffix) != places || suffix > payload.len() {
        return Some(format!("places read: ours {:?}, second {places:?}", (body, suffix)));
    }
    let writing =
        Writing { command, body: payload[body..suffix].to_vec(), suffix: payload[suffix..].to_vec(), room: payload.len() + 7 };
    match writing.write(tally) {
        Err(what) => Some(what),
        Ok((room, count)) => back(payload, &room[..count], body, (answer, command, body, suffix)),
    }
}

/// "Reading what it wrote gives the same command, data and suffix", and a payload "with zero filler and pad, is written back byte
/// for byte".
fn back(payload: &[u8], written: &[u8], body: usize, read: (u8, u64, usize, usize)) -> Option<String> {
    if exports::read_command(written) != read {
        return Some("what was written does not read as it was read".into());
    }
    let zero_filled = payload.get(6..body).map_or(true, |filler| filler.iter().all(|&byte| byte == 0));
    (zero_filled && written != payload).then(|| "a payload is not written back byte for byte".into())
}

/// A command of any numbers, with a body, a suffix and a room that may be wrong by a little.
pub fn writing(random: &mut Random) -> Writing {
    let kind = if random.chance(97) { random.below(16) as u64 } else { random.next() & 0xFFFF };
    let payload = crate::make::command(random);
    let mut command = kind | (random.next() & !0xFFFF);
    if random.chance(85) {
        let word = |at: usize| u64::from(u16::from_be_bytes([*payload.get(at).unwrap_or(&0), *payload.get(at + 1).unwrap_or(&9)]));
        command = kind | word(2) << 16 | word(4) << 32;
    }
    if kind == 9 || kind == 14 {
        command = command & !0xFF0000 | (random.below(0x63) as u64) << 16;
    }
    let span = |start: u16, end: u16| usize::from(end.saturating_sub(start)) + 1;
    let mut count = match layout::command(command) {
        Command::ProgramFlash { start, end } => span(start.0, end.0),
        Command::ProgramEeprom { start, end } => span(start.0, end.0),
        _ => random.below(3),
    }
    .min(1100);
    let mut suffix = SUFFIX;
    match random.below(20) {
        0 => count += 1,
        1 => count = count.saturating_sub(1),
        2 => suffix = random.of(&[0, 15, 17]),
        _ => {}
    }
    let body = random.bytes(count);
    let suffix = random.bytes(suffix);
    let need = exports::write_command(command, &body, &suffix, &mut vec![0; 1200]).1;
    let room = match random.below(8) {
        0 => need.saturating_sub(1),
        1 => random.below(need + 1),
        2 => need,
        _ => need + random.below(40),
    };
    Writing { command, body, suffix, room }
}
