//! Blank checks at the edges of pages: from each of these places to itself and to each one behind it, on boards that are blank but for a
//! byte at one of them and, where the flash has it, one a little further on. A byte outside the range, in the page that the range begins or
//! ends in, must not decide.

use crate::layout;
use crate::make;
use crate::random::Random;
use crate::sequence::{Fill, Sequence, Step, FLASH, IDLE};
use second::Config;

/// At the edges of the first two pages, of one in the middle and of the last, and one place inside each.
pub const PLACES: [u16; 21] = [
    0x0000, 0x0001, 0x0040, 0x007E, 0x007F, 0x0080, 0x0081, 0x00C8, 0x00FE, 0x00FF, 0x0100, 0x0101, 0x3FFF, 0x4000, 0x4040, 0x407F,
    0x7F7F, 0x7F80, 0x7FC0, 0x7FFE, 0x7FFF,
];
/// How far the other byte stands behind the first.
pub const FURTHER: u16 = 3;

/// Programs 00h into one byte of flash: 48 + X + 1 bytes, X being start mod 32.
fn program(at: u16) -> Vec<u8> {
    let mut data = make::ranged(1, 0, (at, at));
    data.resize(48 + usize::from(at % 32) + 1, 0x00);
    data
}

/// The board with a byte at this place: it is asked for each range, then for the status and for the address.
pub fn sequence(used: u16) -> Sequence {
    let mut random = Random::new(Random::seed_of(u64::from(used), 7));
    let mut steps = Vec::new();
    if usize::from(used + FURTHER) < FLASH {
        steps.push(Step::Ask(make::download(&mut random, program(used + FURTHER))));
    }
    for (at, &start) in PLACES.iter().enumerate() {
        for &end in &PLACES[at..] {
            let check = make::download(&mut random, make::ranged(3, 1, (start, end)));
            steps.extend([Step::PowerUp, Step::Ask(check)]);
            steps.extend([Step::Ask(make::get_status()), Step::Ask(make::upload(&mut random, 2))]);
        }
    }
    Sequence { session: IDLE, busy: 0, config: layout::pack_config(&Config::DELIVERED), fill: Fill::Used(used), steps }
}
