//! The work that is measured, the same for the loader (through the functions that crates/exports exports) and for the second program;
//! plug.rs has that of the serial plug.
//!
//! `measure names` prints the lines; `measure repeat LINE WHO COUNT` does a line's work so many times, WHO being `ours`, `second`, or
//! `packed`, which is the second program behind the same numbers as ours;
//! `measure time` does every line with both in turn, and prints the microseconds of each; `measure job` writes the job of requests.
//!
//! Before the first time both memories are filled with FFh and the reply buffer and the room with 00h. Nothing is cleared between
//! one time and the next.

#[path = "../../tests/compare/src/layout.rs"]
mod layout;
mod plug;

use std::hint::black_box;
use std::io::Write;
use std::time::Instant;

const FLASH: usize = 32_768;
const EEPROM: usize = 1_024;
const BLOCK: usize = 1_024;
/// A program transfer of 1,024 bytes from 001Fh on: 48 + 31 + 1,024.
const LONGEST: usize = 1_103;
const JOB: usize = 16_384;

const NAMES: [&str; 10] = [
    "reload 32 KiB in 32 transfers, two GETSTATUS after each",
    "read 32 KiB back",
    "blank check, blank board",
    "blank check, last byte used",
    "1,000 GETSTATUS",
    "1,000 GETSTATUS in state 3, nine pages to wait for",
    "write a command of 1,103 bytes",
    "read a command of 1,103 bytes",
    "check a job of 16 KiB, 1,489 requests",
    "check a job of 16 KiB, 712 requests, each in four groups",
];

/// What is measured: a board, the reader, the writer, and the check of a job.
trait Program {
    fn new() -> Self;
    /// Back to state 2, as a power-up does.
    fn power_up(&mut self);
    /// State 3 with so many pages to wait for, as a program transfer leaves it.
    fn wait_for(&mut self, pages: u16);
    fn use_last_byte(&mut self);
    /// One request; how many bytes are sent.
    fn ask(&mut self, setup: &[u8], data: &[u8]) -> usize;
    /// The bytes that were sent, and what follows them.
    fn reply(&self) -> &[u8];
    fn write(start: u16, end: u16, body: &[u8], suffix: &[u8], room: &mut [u8]) -> usize;
    /// Where the suffix begins.
    fn read(payload: &[u8]) -> usize;
    /// How many requests an accepted job holds.
    fn check(file: &[u8]) -> usize;
}

struct Ours {
    session: u64,
    busy: u16,
    config: u64,
    flash: Vec<u8>,
    eeprom: Vec<u8>,
    reply: Vec<u8>,
}

impl Program for Ours {
    fn new() -> Ours {
        // BSB, the first byte, is the lowest of the number, and HSB the highest.
        let config = u64::from_le_bytes([0xFF, 0xFC, 0xFE, 0xFF, 0xFF, 0xFF, 0xFF, 0xBB]);
        let (session, busy) = exports::power_up();
        Ours { session, busy, config, flash: vec![0xFF; FLASH], eeprom: vec![0xFF; EEPROM], reply: vec![0; BLOCK] }
    }

    fn power_up(&mut self) {
        (self.session, self.busy) = exports::power_up();
    }

    fn wait_for(&mut self, pages: u16) {
        // The state is the lowest byte of the number; status and what is pending are 0.
        (self.session, self.busy) = (3, pages);
    }

    fn use_last_byte(&mut self) {
        self.flash[FLASH - 1] = 0;
    }

    fn ask(&mut self, setup: &[u8], data: &[u8]) -> usize {
        let Ours { session, busy, config, flash, eeprom, reply } = self;
        exports::step(session, busy, config, setup, data, flash, eeprom, reply).1
    }

    fn reply(&self) -> &[u8] {
        &self.reply
    }

    fn write(start: u16, end: u16, body: &[u8], suffix: &[u8], room: &mut [u8]) -> usize {
        // Kind 0, program flash, with start and end.
        exports::write_command(u64::from(start) << 16 | u64::from(end) << 32, body, suffix, room).1
    }

    fn read(payload: &[u8]) -> usize {
        exports::read_command(payload).3
    }

    fn check(file: &[u8]) -> usize {
        match exports::check_job(file) {
            (0, _) => exports::count_requests(file),
            _ => 0,
        }
    }
}

struct Second {
    session: second::Session,
    config: second::Config,
    flash: Vec<u8>,
    eeprom: Vec<u8>,
    reply: Vec<u8>,
}

impl Program for Second {
    fn new() -> Second {
        let (session, config) = (second::Session::POWERED, second::Config::DELIVERED);
        Second { session, config, flash: vec![0xFF; FLASH], eeprom: vec![0xFF; EEPROM], reply: vec![0; BLOCK] }
    }

    fn power_up(&mut self) {
        second::power_up(&mut self.session);
    }

    fn wait_for(&mut self, pages: u16) {
        self.session = second::Session { state: 3, busy: pages, ..second::Session::POWERED };
    }

    fn use_last_byte(&mut self) {
        self.flash[FLASH - 1] = 0;
    }

    fn ask(&mut self, setup: &[u8], data: &[u8]) -> usize {
        let Second { session, config, flash, eeprom, reply } = self;
        second::step(session, config, setup, data, flash, eeprom, reply).length
    }

    fn reply(&self) -> &[u8] {
        &self.reply
    }

    fn write(start: u16, end: u16, body: &[u8], suffix: &[u8], room: &mut [u8]) -> usize {
        let command = second::Command::ProgramFlash { start: second::FlashAddress(start), end: second::FlashAddress(end) };
        second::write_command(command, body, suffix, room).unwrap_or(0)
    }

    fn read(payload: &[u8]) -> usize {
        match second::read_command(payload) {
            second::Reading::Command(_, _, suffix) => suffix.start,
            _ => 0,
        }
    }

    fn check(file: &[u8]) -> usize {
        match second::verdict(file) {
            Ok(()) => second::count(file),
            Err(_) => 0,
        }
    }
}

/// The second program behind the same numbers as ours: session, configuration, outcome and command are packed and unpacked.
struct Packed {
    session: u64,
    busy: u16,
    config: u64,
    flash: Vec<u8>,
    eeprom: Vec<u8>,
    reply: Vec<u8>,
}

impl Program for Packed {
    fn new() -> Packed {
        let Ours { session, busy, config, flash, eeprom, reply } = Ours::new();
        Packed { session, busy, config, flash, eeprom, reply }
    }

    fn power_up(&mut self) {
        (self.session, self.busy) = (layout::pack_session(&second::Session::POWERED), second::Session::POWERED.busy);
    }

    fn wait_for(&mut self, pages: u16) {
        (self.session, self.busy) = (3, pages);
    }

    fn use_last_byte(&mut self) {
        self.flash[FLASH - 1] = 0;
    }

    fn ask(&mut self, setup: &[u8], data: &[u8]) -> usize {
        let Packed { session: packed_session, busy, config: packed_config, flash, eeprom, reply } = self;
        let (mut session, mut config) = (layout::session(*packed_session, *busy), layout::config(*packed_config));
        let answer = second::step(&mut session, &mut config, setup, data, flash, eeprom, reply);
        (*packed_session, *busy, *packed_config) = (layout::pack_session(&session), session.busy, layout::pack_config(&config));
        black_box(layout::pack_outcome(&answer.outcome));
        answer.length
    }

    fn reply(&self) -> &[u8] {
        &self.reply
    }

    fn write(start: u16, end: u16, body: &[u8], suffix: &[u8], room: &mut [u8]) -> usize {
        let command = layout::command(black_box(u64::from(start) << 16 | u64::from(end) << 32));
        second::write_command(command, body, suffix, room).unwrap_or(0)
    }

    fn read(payload: &[u8]) -> usize {
        match second::read_command(payload) {
            second::Reading::Command(command, _, suffix) => {
                black_box(layout::pack_command(&command));
                suffix.start
            }
            _ => 0,
        }
    }

    fn check(file: &[u8]) -> usize {
        Second::check(file)
    }
}

/// What the work is done on, made beforehand.
struct Work {
    transfers: Vec<(Vec<u8>, Vec<u8>)>,
    reads: Vec<Vec<u8>>,
    body: Vec<u8>,
    longest: Vec<u8>,
    room: Vec<u8>,
    flat_job: Vec<u8>,
    grouped_job: Vec<u8>,
}

const GET_STATUS: [u8; 8] = [0xA1, 3, 0, 0, 0, 0, 6, 0];
const UPLOAD: [u8; 8] = [0xA1, 2, 0, 0, 0, 0, 0x00, 0x04];

fn download(length: usize) -> Vec<u8> {
    let [low, high] = (length as u16).to_le_bytes();
    vec![0x21, 1, 0, 0, 0, 0, low, high]
}

fn ranged(code: u8, selector: u8, start: usize, end: usize) -> Vec<u8> {
    let ([s1, s0], [e1, e0]) = ((start as u16).to_be_bytes(), (end as u16).to_be_bytes());
    vec![code, selector, s1, s0, e1, e0]
}

/// As many GETSTATUS requests as fit, each alone or in four groups.
fn job(deep: bool) -> Vec<u8> {
    let request = [&[1, 0, 8][..], &GET_STATUS].concat();
    let group = |inside: Vec<u8>| [vec![2, (inside.len() >> 8) as u8, inside.len() as u8], inside].concat();
    let mut file = Vec::new();
    loop {
        let field = if deep { group(group(group(group(request.clone())))) } else { request.clone() };
        if file.len() + field.len() > JOB {
            return file;
        }
        file.extend(field);
    }
}

impl Work {
    fn new() -> Work {
        let byte = |i: usize| (i * 7 + i / 256) as u8;
        let transfers = (0..FLASH / BLOCK).map(|block| {
            let start = block * BLOCK;
            let mut data = ranged(1, 0, start, start + BLOCK - 1);
            data.resize(32, 0);
            data.extend((start..start + BLOCK).map(byte));
            data.resize(data.len() + 16, 0);
            (download(data.len()), data)
        });
        let body: Vec<u8> = (0..BLOCK).map(byte).collect();
        let mut longest = ranged(1, 0, 0x1F, 0x1F + BLOCK - 1);
        longest.resize(32 + 31, 0);
        longest.extend(&body);
        longest.resize(LONGEST, 0);
        Work {
            transfers: transfers.collect(),
            reads: (0..FLASH / BLOCK).map(|block| ranged(3, 0, block * BLOCK, block * BLOCK + BLOCK - 1)).collect(),
            body,
            longest,
            room: vec![0; LONGEST],
            flat_job: job(false),
            grouped_job: job(true),
        }
    }

    /// Does the work of a line once, and fails if it was not done.
    fn once<P: Program>(&mut self, line: usize, board: &mut P) {
        match line {
            0 => {
                for (setup, data) in &self.transfers {
                    board.ask(black_box(setup), black_box(data));
                    // The first answers state 4 and how long to wait, the second state 5.
                    board.ask(&GET_STATUS, &[]);
                    assert_eq!(board.ask(&GET_STATUS, &[]), 6);
                }
                // A stall would stay.
                assert_eq!(board.reply()[..6], [0, 0, 0, 0, 5, 0]);
            }
            1 => {
                board.power_up();
                for command in &self.reads {
                    board.ask(&download(6), black_box(command));
                    board.ask(&GET_STATUS, &[]);
                    assert_eq!(board.ask(&UPLOAD, &[]), BLOCK);
                }
            }
            2 | 3 => {
                board.power_up();
                board.ask(&download(6), black_box(&[3, 1, 0, 0, 0x7F, 0xFF]));
                board.ask(&GET_STATUS, &[]);
                assert_eq!(board.ask(&UPLOAD, &[]), if line == 3 { 2 } else { 0 });
            }
            4 => {
                for _ in 0..1_000 {
                    assert_eq!(board.ask(black_box(&GET_STATUS), &[]), 6);
                }
            }
            5 => {
                for _ in 0..1_000 {
                    board.wait_for(black_box(9));
                    assert_eq!(board.ask(black_box(&GET_STATUS), &[]), 6);
                }
                assert_eq!(board.reply()[..6], [0, 90, 0, 0, 4, 0]);
            }
            6 => assert_eq!(P::write(0x1F, 0x41E, black_box(&self.body), &[0; 16], black_box(&mut self.room)), LONGEST),
            7 => assert_eq!(P::read(black_box(&self.longest)), LONGEST - 16),
            8 => assert_eq!(P::check(black_box(&self.flat_job)), JOB / 11),
            _ => assert_eq!(P::check(black_box(&self.grouped_job)), JOB / 23),
        }
    }

    fn repeat<P: Program>(&mut self, line: usize, count: usize) -> f64 {
        let mut board = P::new();
        if line == 3 {
            board.use_last_byte();
        }
        let begin = Instant::now();
        for _ in 0..count {
            self.once(line, &mut board);
        }
        begin.elapsed().as_secs_f64() * 1e6 / count as f64
    }
}

/// What is measured: the work of the USB loader, then that of the serial plug, which is made only where it is done.
struct Lines {
    work: Work,
    plug: Option<plug::Work>,
}

impl Lines {
    /// Does a line's work so many times with one program: the microseconds of one time.
    fn repeat(&mut self, line: usize, who: &str, count: usize) -> f64 {
        let Some(plug_line) = line.checked_sub(NAMES.len()) else {
            return match who {
                "ours" => self.work.repeat::<Ours>(line, count),
                "packed" => self.work.repeat::<Packed>(line, count),
                _ => self.work.repeat::<Second>(line, count),
            };
        };
        let plug = self.plug.get_or_insert_with(plug::Work::new);
        match who {
            "ours" => plug.repeat::<plug::Ours>(plug_line, count),
            "packed" => plug.repeat::<plug::Packed>(plug_line, count),
            _ => plug.repeat::<plug::Second>(plug_line, count),
        }
    }

    /// The least of several goes, in microseconds: ours, then the second's.
    fn time(&mut self, line: usize) -> (f64, f64) {
        let count = if line >= 4 && line <= 7 { 200 } else { 20 };
        (0..15).fold((f64::MAX, f64::MAX), |(ours, second), _| {
            (ours.min(self.repeat(line, "ours", count)), second.min(self.repeat(line, "second", count)))
        })
    }
}

fn main() {
    let words: Vec<String> = std::env::args().skip(1).collect();
    let words: Vec<&str> = words.iter().map(String::as_str).collect();
    let names = || NAMES.iter().chain(&plug::NAMES);
    let mut lines = Lines { work: Work::new(), plug: None };
    match words[..] {
        ["names"] => names().for_each(|name| println!("{name}")),
        ["repeat", line, who, count] => {
            lines.repeat(line.parse().expect("a line"), who, count.parse().expect("a count"));
        }
        ["time"] => {
            for line in 0..names().count() {
                let (ours, second) = lines.time(line);
                println!("{ours:.2} {second:.2}");
            }
        }
        ["job"] => std::io::stdout().write_all(&lines.work.flat_job).expect("the job is written"),
        _ => println!("measure names | repeat LINE WHO COUNT | time | job"),
    }
}
