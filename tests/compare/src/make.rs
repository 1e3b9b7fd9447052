//! Requests, sessions and configurations, mostly right and often wrong by a little.

use crate::every_ssb::SSB;
use crate::random::Random;
use crate::sequence::{Fill, Request, Second, Sequence, Step, EEPROM, FLASH, IDLE, REPLY, ROOM};
use crate::tally::STATES;
use second::{Config, Pending, Session};

/// Addresses at an edge of something.
const EDGES: [u16; 24] = [
    0x0000, 0x0001, 0x001F, 0x0020, 0x007F, 0x0080, 0x00AF, 0x00FF, 0x0100, 0x03E0, 0x03FF, 0x0400, 0x1FFF, 0x2000, 0x3FFF, 0x4000,
    0x7BFF, 0x7C00, 0x7F80, 0x7FFE, 0x7FFF, 0x8000, 0xFFFE, 0xFFFF,
];
const COUNTS: [u16; 14] = [1, 2, 3, 16, 17, 127, 128, 129, 300, 640, 896, 1023, 1024, 1025];
/// A busy count above this is refused.
pub const MOST_BUSY: u16 = 256;
/// Mostly level 0, at which most commands are taken. `every_ssb` goes through the rest.
const SSB_VALUES: [u8; 8] = [0xFF, 0xFF, 0xFF, 0xFF, 0xFE, 0xFC, 0xFD, 0x00];

fn address(random: &mut Random, size: usize) -> u16 {
    match random.below(10) {
        0..=3 => random.of(&EDGES),
        4..=8 => random.below(size) as u16,
        _ => random.word(),
    }
}

/// A start and an end, mostly of a memory of that size.
fn range(random: &mut Random, size: usize) -> (u16, u16) {
    let start = address(random, size);
    let count = if random.chance(60) { 1 + random.below(1024) as u16 } else { random.of(&COUNTS) };
    match random.below(12) {
        0 => (start, address(random, size)),
        1..=3 => (start, start),
        _ => (start, start.saturating_add(count - 1).min(if random.chance(90) { size as u16 - 1 } else { 0xFFFF })),
    }
}

pub fn ranged(code: u8, selector: u8, (start, end): (u16, u16)) -> Vec<u8> {
    let ([s1, s0], [e1, e0]) = (start.to_be_bytes(), end.to_be_bytes());
    vec![code, selector, s1, s0, e1, e0]
}

/// A program transfer as it should be: 48 + X + n bytes, X being start mod 32.
pub fn whole_transfer(random: &mut Random, selector: u8, (start, end): (u16, u16)) -> Vec<u8> {
    let mut data = ranged(1, selector, (start, end));
    let rest = 48 + usize::from(start % 32) + usize::from(end - start) + 1 - data.len();
    data.extend(random.bytes(rest));
    data
}

/// A program transfer: mostly 48 + X + n bytes, X being start mod 32.
fn transfer(random: &mut Random) -> Vec<u8> {
    let selector = if random.chance(70) { 0 } else { 1 };
    let size = if selector == 0 { FLASH } else { EEPROM };
    let (start, end) = range(random, size);
    let mut data = ranged(1, selector, (start, end));
    let count = usize::from(end.saturating_sub(start)) + 1;
    let pad = usize::from(start) % 32;
    let whole = match random.below(16) {
        0 => 48 + pad + count + 1,
        1 => 47 + pad + count,
        2 => 48 + usize::from(start) % 128 + count,
        3 => random.below(1200),
        _ => 48 + pad + count,
    }
    .min(2000);
    let zero_filler = random.chance(50);
    let body = if zero_filler { 32 + pad } else { 6 };
    data.resize(whole.min(body), 0);
    let rest = whole - data.len();
    data.extend(match random.below(8) {
        0 => vec![0xFF; rest],
        _ => random.bytes(rest),
    });
    data.truncate(whole);
    data
}

/// DNLOAD data: a command of the table, or something like one.
pub fn command(random: &mut Random) -> Vec<u8> {
    let mut data = match random.below(28) {
        0..=8 => transfer(random),
        9..=11 => ranged(3, 0, range(random, FLASH)),
        12..=13 => ranged(3, 2, range(random, EEPROM)),
        14..=15 => {
            let whole = if random.chance(40) { (0, 0x7FFF) } else { range(random, FLASH) };
            ranged(3, 1, whole)
        }
        16 => vec![4, 0, random.of(&[0x00, 0x20, 0x40, 0x00, 0x20, 0x40, 0xFF, 0x80])],
        17 => {
            let value = if random.chance(60) { random.of(&SSB_VALUES) } else { random.byte() };
            vec![4, 1, SSB as u8, value]
        }
        18 => vec![4, 1, random.below(8) as u8, random.byte()],
        19 => vec![4, 2, u8::from(random.chance(10)), random.byte()],
        20 => vec![4, 3, 0],
        21..=22 => {
            let [high, low] = address(random, FLASH).to_be_bytes();
            vec![4, 3, 1, high, low]
        }
        23 => vec![5, 0, 0],
        24..=25 => vec![5, 1, random.of(&[0, 1, 2, 3, 4, 5, 6, 7, 0x30, 0x31, 0x32, 0x60, 0x61, 0x62])],
        26 => vec![5, 2, 0],
        _ => {
            let count = 1 + random.below(8);
            let mut any = random.bytes(count);
            any[0] = random.below(7) as u8;
            any
        }
    };
    if random.chance(4) {
        let at = random.below(data.len().clamp(1, 6));
        if let Some(byte) = data.get_mut(at) {
            *byte = random.byte();
        }
    }
    match random.below(40) {
        0 => data.push(random.byte()),
        1 => drop(data.pop()),
        _ => {}
    }
    data
}

fn setup(kind: u8, request: u8, value: u16, length: usize) -> Vec<u8> {
    let ([v0, v1], [l0, l1]) = (value.to_le_bytes(), (length as u16).to_le_bytes());
    vec![kind, request, v0, v1, 0, 0, l0, l1]
}

fn request_of(setup: Vec<u8>, data: Vec<u8>) -> Request {
    Request { setup, data, flash: FLASH, eeprom: EEPROM, reply: REPLY }
}

pub fn download(random: &mut Random, data: Vec<u8>) -> Request {
    let value = random.word();
    request_of(setup(0x21, 1, value, data.len()), data)
}

pub fn upload(random: &mut Random, length: usize) -> Request {
    let value = random.word();
    request_of(setup(0xA1, 2, value, length), vec![])
}

/// A request without data.
pub fn bare(kind: u8, request: u8, length: usize) -> Request {
    request_of(setup(kind, request, 0, length), vec![])
}

pub fn get_status() -> Request {
    bare(0xA1, 3, 6)
}

/// How much an UPLOAD asks for.
fn upload_length(random: &mut Random) -> usize {
    match random.below(8) {
        0 => 0,
        1..=2 => 1,
        3 => 2,
        4 => 1024,
        5 => 65535,
        _ => 1 + random.below(700),
    }
}

/// A request that makes sense in this state, or one that does not.
fn plain(random: &mut Random, session: &Session) -> Request {
    let kind = match (session.state, session.pending) {
        (10, _) if random.chance(45) => 10,
        (3 | 6, _) if random.chance(60) => 0,
        (4, _) if random.chance(40) => 0,
        (3 | 5, Pending::Start { .. }) if random.chance(40) => 12,
        (5 | 9, Pending::Nothing) => random.below(22),
        (5 | 9, _) if random.chance(60) => 14,
        (2, _) if random.chance(75) => 20,
        _ => random.below(22),
    };
    match kind {
        0..=5 => get_status(),
        6..=7 => bare(0xA1, 5, 1),
        8 => bare(0x21, 6, 0),
        9..=10 => bare(0x21, 4, 0),
        11 => bare(0x21, 0, 0),
        12 => download(random, vec![]),
        13..=15 => {
            let length = upload_length(random);
            upload(random, length)
        }
        16 if random.chance(30) => {
            let count = random.of(&[1102, 1103, 1104, 1105, 1500]);
            let mut data = command(random);
            data.resize(count, 0);
            download(random, data)
        }
        _ => {
            let data = command(random);
            download(random, data)
        }
    }
}

/// Something is wrong with it: a byte of the setup, the data's length, or a size.
fn damage(random: &mut Random, request: &mut Request) {
    let around = |random: &mut Random, size: usize| random.of(&[size - 1, size + 1, 0, size + ROOM]);
    match random.below(12) {
        0 => request.setup[0] ^= 1 << random.below(8),
        1 => request.setup[1] = random.below(8) as u8,
        2 => request.setup[2 + random.below(2)] ^= 1 << random.below(8),
        3 => request.setup[4 + random.below(2)] ^= 1 << random.below(8),
        4 => request.setup[6] = request.setup[6].wrapping_add(random.of(&[1, 255])),
        5 => request.setup[7] ^= 1 << random.below(8),
        6 => request.setup.resize(random.of(&[0, 1, 7, 9, 16]), 0),
        7 => request.data.push(0),
        8 => drop(request.data.pop()),
        9 => request.flash = around(random, FLASH),
        10 => request.eeprom = around(random, EEPROM),
        _ => request.reply = around(random, REPLY),
    }
    if random.chance(12) {
        request.setup = random.bytes(8);
    }
}

pub fn request(random: &mut Random, session: &Session) -> Request {
    let mut request = plain(random, session);
    if random.chance(8) {
        damage(random, &mut request);
    }
    request
}

/// A busy count, mostly one that is not refused.
pub fn busy(random: &mut Random) -> u16 {
    match random.below(20) {
        0..=6 => 0,
        7..=13 => random.of(&[1, 9, 128, 256]),
        14..=16 => random.below(usize::from(MOST_BUSY) + 1) as u16,
        17..=18 => random.of(&[257, 65_535]),
        _ => random.word(),
    }
}

/// A session of any numbers but its busy count, many of them right.
pub fn session(random: &mut Random) -> u64 {
    if random.chance(5) {
        return random.next();
    }
    let state = if random.chance(92) { random.of(&STATES) } else { random.below(14) as u8 };
    let status = if random.chance(95) { random.below(17) as u8 } else { random.byte() };
    let kind = if random.chance(97) { random.below(7) as u16 } else { random.word() };
    let size = if kind == 2 { EEPROM } else { FLASH };
    let (first, last) = range(random, size);
    let words = [u16::from_le_bytes([state, status]), kind, first, last];
    words.iter().rev().fold(0, |n, &word| n << 16 | u64::from(word))
}

pub fn config(random: &mut Random) -> u64 {
    let mut bytes = random.next().to_le_bytes();
    bytes[SSB] = if random.chance(90) { random.of(&SSB_VALUES) } else { random.byte() };
    u64::from_le_bytes(bytes)
}

/// What comes next on a board.
pub fn step(random: &mut Random, session_now: &Session) -> Step {
    let running = session_now.state == 0 && random.chance(70);
    let refused = session_now.busy > MOST_BUSY && random.chance(50);
    match random.below(100) {
        _ if running => Step::PowerUp,
        _ if refused => Step::Busy(busy(random)),
        0..=3 => Step::Session(session(random)),
        4..=5 => Step::Config(config(random)),
        6 => Step::PowerUp,
        7..=10 => Step::Busy(busy(random)),
        _ => Step::Ask(request(random, session_now)),
    }
}

/// A sequence's board; its steps are made as it runs.
pub fn board(random: &mut Random) -> Sequence {
    let fill = match random.below(6) {
        0..=1 => Fill::Blank,
        2 => Fill::Used(random.word()),
        _ => Fill::Any(random.next()),
    };
    let delivered = crate::layout::pack_config(&Config::DELIVERED);
    Sequence {
        session: if random.chance(50) { IDLE } else { session(random) },
        busy: if random.chance(50) { 0 } else { busy(random) },
        config: if random.chance(60) { delivered } else { config(random) },
        fill,
        steps: vec![],
    }
}

/// The requests of a job, each as setup and data, that make sense one after another on a delivered board.
pub fn job_requests(random: &mut Random, count: usize) -> Vec<(Vec<u8>, Vec<u8>)> {
    let delivered = crate::layout::pack_config(&Config::DELIVERED);
    let mut board = Second::new(IDLE, 0, delivered, Fill::Blank);
    let mut requests = Vec::new();
    while requests.len() < count {
        let mut next = request(random, &board.session);
        next.setup.resize(8, 0);
        (next.flash, next.eeprom, next.reply) = (FLASH, EEPROM, REPLY);
        board.ask(&next);
        requests.push((next.setup, next.data));
    }
    requests
}
