//! The work that is measured on the serial plug, at level 0. The flash is filled with FFh and the room with 00h once, before the first
//! time.

#[path = "../../tests/compare/src/serial/layout.rs"]
mod layout;

use std::hint::black_box;
use std::time::Instant;

const FLASH: usize = 65_536;
/// A display of all flash: 4,096 lines of an address, `=`, 32 digits, CR and LF.
const ROOM: usize = 4_096 * 39;
/// BSB, SBV, SSB of level 0, and HSB.
const CONFIG: [u8; 4] = [0xFF, 0xF0, 0xFF, 0xBB];
const RELOADED: usize = 32_768;

pub const NAMES: [&str; 3] = [
    "serial plug: display all flash",
    "serial plug: reload 32 KiB by 2,048 records of 16 bytes",
    "serial plug: reload 32 KiB by 256 records of 128 bytes",
];

/// A board that takes one record, and answers how many characters stand in its room.
pub trait Plug {
    fn new() -> Self;
    fn take(&mut self, record: &[u8]) -> usize;
}

pub struct Ours {
    config: u32,
    flash: Vec<u8>,
    room: Vec<u8>,
}

impl Plug for Ours {
    fn new() -> Ours {
        Ours { config: u32::from_le_bytes(CONFIG), flash: vec![0xFF; FLASH], room: vec![0; ROOM] }
    }

    fn take(&mut self, record: &[u8]) -> usize {
        exports::serial::step(&mut self.config, record, &mut self.flash, &mut self.room).1
    }
}

pub struct Second {
    config: second::serial::Config,
    flash: Vec<u8>,
    room: Vec<u8>,
}

impl Plug for Second {
    fn new() -> Second {
        let config = layout::config(u32::from_le_bytes(CONFIG));
        Second { config, flash: vec![0xFF; FLASH], room: vec![0; ROOM] }
    }

    fn take(&mut self, record: &[u8]) -> usize {
        let answer = second::serial::step(self.config, record, &mut self.flash, &mut self.room);
        self.config = answer.config;
        answer.length
    }
}

/// The second program behind the same numbers as ours: configuration and outcome are packed and unpacked.
pub struct Packed {
    config: u32,
    flash: Vec<u8>,
    room: Vec<u8>,
}

impl Plug for Packed {
    fn new() -> Packed {
        let Ours { config, flash, room } = Ours::new();
        Packed { config, flash, room }
    }

    fn take(&mut self, record: &[u8]) -> usize {
        let answer = second::serial::step(layout::config(self.config), record, &mut self.flash, &mut self.room);
        self.config = layout::pack_config(&answer.config);
        black_box(layout::pack_outcome(&answer.outcome));
        answer.length
    }
}

/// The records that are sent, made beforehand.
pub struct Work {
    display: Vec<u8>,
    reloads: [Vec<Vec<u8>>; 2],
}

/// The characters of a record.
fn record(offset: usize, kind: u8, data: &[u8]) -> Vec<u8> {
    let mut bytes = vec![data.len() as u8, (offset >> 8) as u8, offset as u8, kind];
    bytes.extend(data);
    bytes.push(bytes.iter().fold(0, |sum: u8, &byte| sum.wrapping_sub(byte)));
    let digits = bytes.iter().flat_map(|byte| [byte >> 4, byte & 15]).map(|digit| b"0123456789ABCDEF"[usize::from(digit)]);
    [b':'].into_iter().chain(digits).collect()
}

impl Work {
    pub fn new() -> Work {
        let reload = |size: usize| {
            let piece = |start: usize| (start..start + size).map(|i| (i * 7 + i / 256) as u8).collect::<Vec<u8>>();
            (0..RELOADED).step_by(size).map(|start| record(start, 0, &piece(start))).collect()
        };
        Work { display: record(0, 4, &[0x00, 0x00, 0xFF, 0xFF, 0x00]), reloads: [reload(16), reload(128)] }
    }

    /// Does the work of a line so many times, and fails if it was not done: the microseconds of one time.
    pub fn repeat<P: Plug>(&self, line: usize, count: usize) -> f64 {
        let mut board = P::new();
        let begin = Instant::now();
        for _ in 0..count {
            match line {
                0 => assert_eq!(board.take(black_box(&self.display)), ROOM),
                _ => self.reloads[line - 1].iter().for_each(|record| assert_eq!(board.take(black_box(record)), 3)),
            }
        }
        begin.elapsed().as_secs_f64() * 1e6 / count as f64
    }
}
