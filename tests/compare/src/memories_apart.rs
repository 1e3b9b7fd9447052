//! Program transfers to flash and to EEPROM at the same addresses, on a board of each level: from each of these places to each, backward
//! too, of the right length and of a byte less or more. What is programmed into one memory must not stand in the other, and each memory
//! has its own end.

use crate::every_ssb::SSB;
use crate::layout;
use crate::make;
use crate::random::Random;
use crate::sequence::{Fill, Sequence, Step, IDLE};
use second::Config;

/// The SSB of each level.
pub const LEVELS: [u8; 3] = [0xFF, 0xFE, 0xFC];
/// At the ends of both memories, 1,024 bytes before and after them, and at the edges of the first page.
const PLACES: [u16; 14] =
    [0x0000, 0x0001, 0x007F, 0x0080, 0x03FE, 0x03FF, 0x0400, 0x0401, 0x07FF, 0x7C00, 0x7FFE, 0x7FFF, 0x8000, 0xFFFF];
/// Codes of flash and EEPROM, and two that are none.
const CODES: [u8; 4] = [0x00, 0x01, 0x02, 0xFF];
/// A byte less than the 48 that a transfer has besides its pad and its n bytes.
const SHORT: usize = 47;
/// The most bytes that DNLOAD looks at.
const MOST: usize = 1_103;

/// The transfer with this code, 47 + X + n bytes and so many more; a backward range counts no bytes.
fn transfer(random: &mut Random, code: u8, (start, end): (u16, u16), more: usize) -> Vec<u8> {
    let count = (usize::from(end) + 1).saturating_sub(usize::from(start));
    let mut data = make::ranged(1, code, (start, end));
    let rest = (SHORT + usize::from(start % 32) + count + more).min(MOST) - data.len();
    data.extend(random.bytes(rest));
    data
}

/// The board of this SSB after power-up, before each transfer.
pub fn sequence(ssb: u8) -> Sequence {
    let mut random = Random::new(Random::seed_of(u64::from(ssb), 4));
    let mut config = Config::DELIVERED;
    config.bytes[SSB] = ssb;
    let mut steps = Vec::new();
    for (start, end) in PLACES.iter().flat_map(|&start| PLACES.map(|end| (start, end))) {
        for (code, more) in CODES.iter().flat_map(|&code| [0, 1, 2].map(|more| (code, more))) {
            let data = transfer(&mut random, code, (start, end), more);
            steps.extend([Step::PowerUp, Step::Ask(make::download(&mut random, data))]);
        }
    }
    Sequence { session: IDLE, busy: 0, config: layout::pack_config(&config), fill: Fill::Any(random.next()), steps }
}
