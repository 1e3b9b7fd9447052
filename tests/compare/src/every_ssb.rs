//! A board of every SSB value, at every command and at UPLOAD. The bench programs can't reach most of these values.

use crate::layout;
use crate::make;
use crate::random::Random;
use crate::sequence::{Fill, Sequence, Step, IDLE};
use second::{Memory, Pending, Session, StartKind};

/// The index of SSB: its place in a configuration, and the byte of the number that it stands in.
pub const SSB: usize = 5;
/// Values for SSB: two that a cell of the table of levels has, and three that none has.
const WRITTEN: [u8; 5] = [0xFF, 0xFE, 0xFC, 0xFD, 0x00];
/// A place that both memories have. Start mod 32 and mod 128 are equal there: who pads wrongly is to be found in the sequences.
pub const PLACE: (u16, u16) = (0x010F, 0x0110);
pub const WHOLE: (u16, u16) = (0x0000, 0x7FFF);
/// The states in which an UPLOAD can send, and how much is asked for.
const SENDING: [(u8, usize); 4] = [(5, 1), (5, 1024), (9, 1), (9, 1024)];
pub const PENDINGS: [Pending; 7] = [
    Pending::Nothing,
    Pending::Read { memory: Memory::Flash, start: PLACE.0, end: PLACE.1 },
    Pending::Read { memory: Memory::Eeprom, start: PLACE.0, end: PLACE.1 },
    Pending::Blank(0x1234),
    Pending::Byte(0xA7),
    Pending::Start { kind: StartKind::Reset, address: 0 },
    Pending::Start { kind: StartKind::Jump, address: 0x1234 },
];

/// Every command of the table, the erases last, and a blank check of what they leave. SSB is written with its own value too.
fn commands(random: &mut Random, ssb: u8) -> Vec<Vec<u8>> {
    let mut list = vec![make::ranged(3, 0, PLACE), make::ranged(3, 2, PLACE), make::ranged(3, 1, WHOLE)];
    list.extend([0, 1, 2, 3, 4, SSB as u8, 6, 0x30, 0x31, 0x60, 0x61].map(|index| vec![5, 1, index]));
    list.extend([vec![5, 0, 0], vec![5, 2, 0], vec![4, 3, 0], vec![4, 3, 1, 0x12, 0x34]]);
    list.extend([0, 1, 2, 3, 4, 6].map(|index| vec![4, 1, index, random.byte()]));
    list.extend(WRITTEN.iter().chain([&ssb]).map(|&value| vec![4, 1, SSB as u8, value]));
    list.push(vec![4, 2, 0, random.byte()]);
    list.extend([0, 1].map(|selector| make::whole_transfer(random, selector, PLACE)));
    list.extend([0x00, 0x20, 0x40, 0xFF].map(|code| vec![4, 0, code]));
    list.push(make::ranged(3, 1, WHOLE));
    list
}

/// The board of this SSB before each: a command in state 2 with the two GETSTATUS and the UPLOAD that follow it, and an UPLOAD of all
/// that can be pending.
pub fn sequence(ssb: u8) -> Sequence {
    let mut random = Random::new(Random::seed_of(u64::from(ssb), 0));
    let mut bytes = random.next().to_le_bytes();
    bytes[SSB] = ssb;
    let config = u64::from_le_bytes(bytes);
    let mut steps = Vec::new();
    for (state, length) in SENDING {
        for pending in PENDINGS {
            let session = layout::pack_session(&Session { state, status: 0, pending, busy: 0 });
            steps.extend([Step::Config(config), Step::Session(session), Step::Ask(make::upload(&mut random, length))]);
        }
    }
    for command in commands(&mut random, ssb) {
        steps.extend([Step::Config(config), Step::PowerUp, Step::Ask(make::download(&mut random, command))]);
        steps.extend([make::get_status(), make::get_status(), make::upload(&mut random, 1024)].map(Step::Ask));
    }
    Sequence { session: IDLE, busy: 0, config, fill: Fill::Any(random.next()), steps }
}
