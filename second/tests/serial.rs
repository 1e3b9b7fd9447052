//! The serial plug: P2 of the change requests, source document 002 row by row,
//! and the points that the project decided. Every expectation is worked out from
//! their words; none is taken from what the program printed.

use std::sync::OnceLock;

use second::serial::*;

// ---------------------------------------------------------------- the bench

const LEVEL_0: u8 = 0xFF;
const LEVEL_1: u8 = 0xFE;
const LEVEL_2: u8 = 0xFC;

/// "SSB FFh is 0, FEh is 1, any other value is 2".
fn level_of(ssb: u8) -> usize {
    match ssb {
        0xFF => 0,
        0xFE => 1,
        _ => 2,
    }
}

/// Everything a record can touch.
#[derive(Clone, Debug, PartialEq)]
struct Board {
    config: Config,
    flash: Vec<u8>,
    room: Vec<u8>,
}

impl Board {
    /// "Delivered: flash all FFh, BSB FFh, SBV F0h, SSB FCh, HSB BBh", a marked
    /// room, but open at level 0.
    fn open() -> Board {
        Board {
            config: Config { bsb: 0xFF, sbv: 0xF0, ssb: LEVEL_0, hsb: 0xBB },
            flash: vec![0xFF; 65_536],
            room: vec![0xA5; 64],
        }
    }

    /// Flash whose every byte tells its address a little, other boot bytes, and
    /// the few places that the rows below look at.
    fn filled() -> Board {
        static FILLED: OnceLock<Board> = OnceLock::new();
        FILLED.get_or_init(Board::fill).clone()
    }

    fn fill() -> Board {
        let mut board = Board::open();
        for (at, byte) in board.flash.iter_mut().enumerate() {
            *byte = (at * 7 + at / 256) as u8;
        }
        board.flash[0x1234..=0x1236].copy_from_slice(&[0x0A, 0xF9, 0x00]);
        board.flash[0x4000..=0x40FF].fill(0xFF);
        board.flash[0x40AB] = 0xFE;
        board.config = Config { bsb: 0x1C, sbv: 0x2D, ssb: LEVEL_0, hsb: 0x5A };
        board
    }

    fn ssb(mut self, ssb: u8) -> Board {
        self.config.ssb = ssb;
        self
    }

    fn room(mut self, size: usize) -> Board {
        self.room = vec![0xA5; size];
        self
    }

    fn send(&mut self, record: &[u8]) -> Answer {
        let answer = step(self.config, record, &mut self.flash, &mut self.room);
        self.config = answer.config;
        answer
    }
}

/// What the papers say of a record: outcome, characters, pages.
struct Said(Outcome, String, usize);

/// Runs one record and compares all of it with what `paper` makes of a copy:
/// answer, configuration, flash, and the room, which stays past the answer.
#[track_caller]
fn expect(before: &Board, record: &[u8], paper: impl FnOnce(&mut Board) -> Said) -> Board {
    let shown = String::from_utf8_lossy(record);
    let mut want = before.clone();
    let Said(outcome, text, pages) = paper(&mut want);
    want.room[..text.len()].copy_from_slice(text.as_bytes());
    let mut got = before.clone();
    let answer = got.send(record);
    assert_eq!(
        answer,
        Answer { outcome, length: text.len(), pages, config: want.config },
        "{shown}"
    );
    assert!(got.room == want.room, "the room differs after {shown}");
    assert!(got.flash == want.flash, "the flash differs after {shown}");
    got
}

/// An answer in characters, with nothing stored.
fn says(text: &str) -> impl FnOnce(&mut Board) -> Said + '_ {
    move |_| Said(Outcome::Answered, text.to_string(), 0)
}

fn refuses(number: u8) -> impl FnOnce(&mut Board) -> Said {
    move |_| Said(Outcome::Refused(number), String::new(), 0)
}

/// `.` with this many pages.
fn done(pages: usize) -> Said {
    Said(Outcome::Answered, ".\r\n".to_string(), pages)
}

const X: &str = "X\r\n";
const P: &str = "P\r\n";

/// A record by the words of 002: `:`, length, offset, type, data, and the "two's
/// complement" of the sum before it.
fn record(offset: u16, kind: u8, data: &[u8]) -> Vec<u8> {
    record_off_by(offset, kind, data, 0)
}

/// The same with this much added to the checksum.
fn record_off_by(offset: u16, kind: u8, data: &[u8], off: u8) -> Vec<u8> {
    let mut text = format!(":{:02X}{offset:04X}{kind:02X}", data.len());
    let mut sum = data.len() as u32 + u32::from(offset >> 8) + u32::from(offset & 0xFF);
    sum += u32::from(kind);
    for byte in data {
        text.push_str(&format!("{byte:02X}"));
        sum += u32::from(*byte);
    }
    let checksum = (256 - sum % 256 + u32::from(off)) % 256;
    text.push_str(&format!("{checksum:02X}"));
    text.into_bytes()
}

/// An example as 002 prints it, its fields apart: `01 0010 00 55 9A`.
fn example(fields: &str) -> Vec<u8> {
    format!(":{}", fields.replace(' ', "")).into_bytes()
}

/// Type 04h: code 00h displays, 01h checks.
fn look(start: u16, end: u16, code: u8) -> Vec<u8> {
    let ([s1, s0], [e1, e0]) = (start.to_be_bytes(), end.to_be_bytes());
    record(0, 0x04, &[s1, s0, e1, e0, code])
}

/// "a line for each 16 bytes from the start address on, the last with the rest".
fn lines(flash: &[u8], start: u16, end: u16) -> String {
    let mut text = String::new();
    for address in start..=end {
        if (address - start) % 16 == 0 {
            text.push_str(&format!("{address:04X}="));
        }
        text.push_str(&format!("{:02X}", flash[usize::from(address)]));
        if (address - start) % 16 == 15 || address == end {
            text.push_str("\r\n");
        }
    }
    text
}

/// A generator of our own, so that a failure comes again.
struct Xorshift(u64);

impl Xorshift {
    fn next(&mut self) -> u64 {
        self.0 ^= self.0 << 13;
        self.0 ^= self.0 >> 7;
        self.0 ^= self.0 << 17;
        self.0
    }

    fn below(&mut self, bound: usize) -> usize {
        ((self.next() >> 16) % bound as u64) as usize
    }

    fn byte(&mut self) -> u8 {
        (self.next() >> 24) as u8
    }

    fn bytes(&mut self, length: usize) -> Vec<u8> {
        (0..length).map(|_| self.byte()).collect()
    }

    fn pick<T: Copy>(&mut self, from: &[T]) -> T {
        from[self.below(from.len())]
    }
}

// ------------------------------------------------------ the examples of 002
//
// Two can't hold as printed. The blank check with checksum error shows its line
// end twice: the lists of answers have `X`, CR, LF, which is what is sent. The
// version example (02 0000 01 02 00 FB) has record type 01h, which no command
// table has: "its command table decides", so it is refused with 17, and the
// version is read with type 05h, 0Fh, 00h. The echo is the driver's.

#[test]
fn example_programming_data() {
    expect(&Board::open(), &example("01 0010 00 55 9A"), |board| {
        board.flash[0x0010] = 0x55;
        done(1)
    });
}

#[test]
fn example_blank_check() {
    let record = example("05 0000 04 0000 7FFF 01 78");
    expect(&Board::open(), &record, says(".\r\n"));
    expect(&Board::open().ssb(LEVEL_2), &record, says(".\r\n"));
    let mut board = Board::open();
    board.flash[0x8000] = 0x00;
    expect(&board, &record, says(".\r\n"));
    board.flash[0x7FFF] = 0x00;
    expect(&board, &record, says("7FFF\r\n"));
    board.flash[0x3ABC] = 0x7F;
    expect(&board, &record, says("3ABC\r\n"));
}

#[test]
fn example_blank_check_with_checksum_error() {
    let board = Board::open();
    let board = expect(&board, &example("05 0000 04 0000 7FFF 01 70"), says(X));
    // Not the doubled line end.
    assert_eq!(&board.room[..6], b"X\r\n\xA5\xA5\xA5");
}

#[test]
fn example_display_0000_to_0020() {
    let mut board = Board::open().room(100);
    for (at, byte) in board.flash[..=0x20].iter_mut().enumerate() {
        *byte = 0xA0 + at as u8;
    }
    let want = concat!(
        "0000=A0A1A2A3A4A5A6A7A8A9AAABACADAEAF\r\n",
        "0010=B0B1B2B3B4B5B6B7B8B9BABBBCBDBEBF\r\n",
        "0020=C0\r\n",
    );
    assert_eq!(want.len(), 87);
    let record = example("05 0000 04 0000 0020 00 D7");
    expect(&board, &record, says(want));
    expect(&board.clone().room(87), &record, says(want));
    expect(&board.room(86), &record, refuses(9));
}

#[test]
fn example_write_ssb_to_level_2() {
    expect(&Board::open(), &example("02 0000 03 05 01 F5"), |board| {
        board.config.ssb = 0xFC;
        done(0)
    });
}

#[test]
fn example_write_bsb_to_55() {
    expect(&Board::open(), &example("03 0000 03 06 00 55 9F"), |board| {
        board.config.bsb = 0x55;
        done(0)
    });
}

#[test]
fn example_read_sbv() {
    let record = example("02 0000 05 07 02 F0");
    expect(&Board::open(), &record, says("F0.\r\n"));
    expect(&Board::filled(), &record, says("2D.\r\n"));
}

#[test]
fn example_version_is_refused_and_the_table_row_reads_it() {
    for ssb in [LEVEL_0, LEVEL_1, LEVEL_2, 0x00] {
        let board = Board::open().ssb(ssb);
        expect(&board, &example("02 0000 01 02 00 FB"), refuses(17));
        expect(&board, &example("02 0000 01 02 00 FA"), says(X));
        expect(&board, &example("02 0000 05 0F 00 EA"), says("11.\r\n"));
    }
}

#[test]
fn example_full_chip_erase() {
    for ssb in [LEVEL_0, LEVEL_1, LEVEL_2, 0x00] {
        expect(&Board::filled().ssb(ssb), &example("01 0000 03 07 F5"), |board| {
            board.flash.fill(0xFF);
            board.config = Config { bsb: 0xFF, sbv: 0xF0, ssb: 0xFF, hsb: 0x5A };
            done(512)
        });
    }
}

#[test]
fn example_erase_block_1() {
    expect(&Board::filled(), &example("02 0000 03 01 20 DA"), |board| {
        board.flash[0x2000..=0x3FFF].fill(0xFF);
        done(64)
    });
}

#[test]
fn example_starts() {
    let reset = example("02 0000 03 03 00 F8");
    let jump = example("04 0000 03 03 01 00 00 F5");
    for ssb in [LEVEL_0, LEVEL_1, LEVEL_2, 0x00] {
        let board = Board::filled().ssb(ssb);
        expect(&board, &reset, |_| Said(Outcome::StartReset, String::new(), 0));
        expect(&board, &jump, |_| Said(Outcome::StartAt(0x0000), String::new(), 0));
    }
}

/// The spaces of the examples are for the eye: a space is no hex digit.
#[test]
fn spaces_and_line_ends_are_no_part_of_a_record() {
    for text in [
        ": 01 0010 00 55 9A",
        ":01 001000559A",
        " :01001000559A",
        ":01001000559A ",
        ":01001000559A\r",
        ":01001000559A\r\n",
        "01001000559A",
        "::01001000559A",
    ] {
        expect(&Board::open(), text.as_bytes(), refuses(17));
    }
}

#[test]
fn the_delivered_board() {
    assert_eq!(delivered(), Config { bsb: 0xFF, sbv: 0xF0, ssb: 0xFC, hsb: 0xBB });
    let mut board = Board::open();
    board.config = delivered();
    // It comes at level 2.
    expect(&board, &example("01 0010 00 55 9A"), says(P));
    expect(&board, &example("02 0000 05 07 02 F0"), says(P));
    expect(&board, &example("05 0000 04 0000 0020 00 D7"), says(P));
    expect(&board, &record(0, 0x05, &[0x07, 0x00]), says("FC.\r\n"));
}

// ------------------------------------------------- the rows of the tables

/// A row of a command table, its cells of the level table, and what it does to
/// [`Board::filled`] where its cell says yes.
struct Row {
    name: &'static str,
    kind: u8,
    data: Vec<u8>,
    yes: [bool; 3],
    act: fn(&mut Board) -> Said,
}

const WRITES: [bool; 3] = [true, false, false];
const READS: [bool; 3] = [true, true, false];
const ALWAYS: [bool; 3] = [true, true, true];

fn row(
    name: &'static str,
    kind: u8,
    data: &[u8],
    yes: [bool; 3],
    act: fn(&mut Board) -> Said,
) -> Row {
    Row { name, kind, data: data.to_vec(), yes, act }
}

fn text(characters: &str) -> Said {
    Said(Outcome::Answered, characters.to_string(), 0)
}

/// "Programming the Flash Data", "Reading the Flash Data" and "Start the Application".
fn flash_rows() -> Vec<Row> {
    vec![
        // Two pages: 127Eh, 127Fh and 1280h.
        row("Program Flash", 0x00, &[0x55, 0x00, 0xFF], WRITES, |board| {
            board.flash[0x127E..=0x1280].copy_from_slice(&[0x55, 0x00, 0xFF]);
            done(2)
        }),
        row("Read Flash", 0x04, &[0x12, 0x34, 0x12, 0x36, 0x00], READS, |_| {
            text("1234=0AF900\r\n")
        }),
        row("Blank check, blank", 0x04, &[0x40, 0x00, 0x40, 0xAA, 0x01], ALWAYS, |_| done(0)),
        row("Blank check, not", 0x04, &[0x40, 0x00, 0x40, 0xFF, 0x01], ALWAYS, |_| {
            text("40AB\r\n")
        }),
        row("Start with a reset", 0x03, &[0x03, 0x00], ALWAYS, |_| {
            Said(Outcome::StartReset, String::new(), 0)
        }),
        row("Start with a jump", 0x03, &[0x03, 0x01, 0xFE, 0xDC], ALWAYS, |_| {
            Said(Outcome::StartAt(0xFEDC), String::new(), 0)
        }),
    ]
}

/// "Program Configuration Information"; HSB is 5Ah, 0101 1010.
fn configuration_rows() -> Vec<Row> {
    vec![
        row("Erase SBV & BSB", 0x03, &[0x04, 0x00], WRITES, |board| {
            (board.config.bsb, board.config.sbv) = (0xFF, 0xF0);
            done(0)
        }),
        row("Program SSB level1", 0x03, &[0x05, 0x00], WRITES, |board| {
            board.config.ssb = 0xFE;
            done(0)
        }),
        row("Program SSB level2", 0x03, &[0x05, 0x01], READS, |board| {
            board.config.ssb = 0xFC;
            done(0)
        }),
        row("Program BSB", 0x03, &[0x06, 0x00, 0x9E], WRITES, |board| {
            board.config.bsb = 0x9E;
            done(0)
        }),
        row("Program SBV", 0x03, &[0x06, 0x01, 0x8F], WRITES, |board| {
            board.config.sbv = 0x8F;
            done(0)
        }),
        row("Program bit BLJB, 0", 0x03, &[0x0A, 0x04, 0x00], WRITES, |board| {
            board.config.hsb = 0x1A;
            done(0)
        }),
        row("Program bit BLJB, 1", 0x03, &[0x0A, 0x04, 0x01], WRITES, |_| done(0)),
        row("Program bit X2, 0", 0x03, &[0x0A, 0x08, 0x00], WRITES, |_| done(0)),
        row("Program bit X2, 1", 0x03, &[0x0A, 0x08, 0x01], WRITES, |board| {
            board.config.hsb = 0xDA;
            done(0)
        }),
    ]
}

/// "Read Configuration Information or Manufacturer Information".
fn read_rows() -> Vec<Row> {
    vec![
        row("Read Manufacturer Code", 0x05, &[0x00, 0x00], ALWAYS, |_| text("58.\r\n")),
        row("Read Family Code", 0x05, &[0x00, 0x01], ALWAYS, |_| text("D7.\r\n")),
        row("Read Product Name", 0x05, &[0x00, 0x02], ALWAYS, |_| text("EC.\r\n")),
        row("Read Product Revision", 0x05, &[0x00, 0x03], ALWAYS, |_| text("FF.\r\n")),
        row("Read SSB", 0x05, &[0x07, 0x00], ALWAYS, |board| {
            text(&format!("{:02X}.\r\n", board.config.ssb))
        }),
        row("Read BSB", 0x05, &[0x07, 0x01], READS, |_| text("1C.\r\n")),
        row("Read SBV", 0x05, &[0x07, 0x02], READS, |_| text("2D.\r\n")),
        row("Read HSB", 0x05, &[0x0B, 0x00], READS, |_| text("5A.\r\n")),
        row("Read Device ID1", 0x05, &[0x0E, 0x00], ALWAYS, |_| text("D7.\r\n")),
        row("Read Device ID2", 0x05, &[0x0E, 0x01], ALWAYS, |_| text("EC.\r\n")),
        row("Read bootloader version", 0x05, &[0x0F, 0x00], ALWAYS, |_| text("11.\r\n")),
    ]
}

/// "Erase the Flash".
fn erase_rows() -> Vec<Row> {
    vec![
        row("Erase block0", 0x03, &[0x01, 0x00], WRITES, |board| {
            board.flash[..=0x1FFF].fill(0xFF);
            done(64)
        }),
        row("Erase block1", 0x03, &[0x01, 0x20], WRITES, |board| {
            board.flash[0x2000..=0x3FFF].fill(0xFF);
            done(64)
        }),
        row("Erase block2", 0x03, &[0x01, 0x40], WRITES, |board| {
            board.flash[0x4000..=0x7FFF].fill(0xFF);
            done(128)
        }),
        row("Erase block3", 0x03, &[0x01, 0x80], WRITES, |board| {
            board.flash[0x8000..=0xFFFF].fill(0xFF);
            done(256)
        }),
        row("Full chip erase", 0x03, &[0x07], ALWAYS, |board| {
            board.flash.fill(0xFF);
            board.config = Config { bsb: 0xFF, sbv: 0xF0, ssb: 0xFF, hsb: 0x5A };
            done(512)
        }),
    ]
}

fn rows() -> Vec<Row> {
    let mut all = flash_rows();
    all.extend(configuration_rows());
    all.extend(read_rows());
    all.extend(erase_rows());
    all
}

impl Row {
    /// 127Eh is where the program row starts; the others don't look at it.
    fn record(&self) -> Vec<u8> {
        record(0x127E, self.kind, &self.data)
    }

    /// What the papers say at the board's level.
    fn said(&self, board: &mut Board) -> Said {
        if self.yes[level_of(board.config.ssb)] {
            (self.act)(board)
        } else {
            text(P)
        }
    }
}

/// Each row at each of the 256 values of SSB: P1 has 254 of them at level 2.
#[test]
fn each_row_at_each_ssb() {
    let filled = Board::filled();
    for row in rows() {
        for ssb in 0..=255 {
            expect(&filled.clone().ssb(ssb), &row.record(), |board| row.said(board));
        }
    }
}

/// The level table once more, in the words of its own lines.
#[test]
fn the_level_table() {
    let plain = |name: &str, cells: &str| {
        let row = rows().into_iter().find(|row| row.name == name).unwrap();
        let ssbs = [LEVEL_0, LEVEL_1, LEVEL_2];
        for (ssb, cell) in ssbs.into_iter().zip(cells.chars()) {
            let mut board = Board::filled().ssb(ssb);
            let answer = board.send(&row.record());
            let refused = &board.room[..answer.length] == b"P\r\n";
            assert_eq!(refused, cell == 'P', "{name} with SSB {ssb:02X}");
        }
    };
    plain("Program Flash", "yPP");
    plain("Erase block0", "yPP");
    plain("Erase block3", "yPP");
    plain("Program BSB", "yPP");
    plain("Program SBV", "yPP");
    plain("Erase SBV & BSB", "yPP");
    plain("Program bit BLJB, 0", "yPP");
    plain("Program bit X2, 1", "yPP");
    plain("Program SSB level1", "yPP");
    plain("Program SSB level2", "yyP");
    plain("Read Flash", "yyP");
    plain("Read BSB", "yyP");
    plain("Read SBV", "yyP");
    plain("Read HSB", "yyP");
    plain("Read SSB", "yyy");
    plain("Blank check, blank", "yyy");
    plain("Blank check, not", "yyy");
    plain("Full chip erase", "yyy");
    plain("Read bootloader version", "yyy");
    plain("Start with a jump", "yyy");
}

/// "The load offset counts in the checksum and is otherwise looked at in program
/// records only."
#[test]
fn the_load_offset_of_the_other_rows() {
    for row in rows().iter().filter(|row| row.kind != 0x00) {
        for offset in [0x0000, 0x0001, 0x7FFF, 0xBEEF, 0xFFFF] {
            let good = record(offset, row.kind, &row.data);
            expect(&Board::filled(), &good, |board| row.said(board));
            let bad = record_off_by(offset, row.kind, &row.data, 1);
            expect(&Board::filled(), &bad, says(X));
        }
    }
}

/// Rooms of each size around each row's answer, at each level: 9 under it, and
/// then nothing is stored; the room past the answer stays.
#[test]
fn each_row_in_each_room() {
    for row in rows() {
        for ssb in [LEVEL_0, LEVEL_1, LEVEL_2, 0x00] {
            let full = Board::filled().ssb(ssb);
            let Said(outcome, answer, _) = row.said(&mut full.clone());
            for size in 0..answer.len() {
                expect(&full.clone().room(size), &row.record(), refuses(9));
            }
            for size in answer.len()..answer.len() + 4 {
                expect(&full.clone().room(size), &row.record(), |board| row.said(board));
            }
            let starts = !matches!(outcome, Outcome::Answered);
            assert_eq!(answer.is_empty(), starts, "{}", row.name);
        }
    }
}

/// "`X` ... doesn't fit": 9 there too, for each row.
#[test]
fn a_wrong_checksum_of_each_row_in_each_room() {
    for row in rows() {
        let bad = record_off_by(0x127E, row.kind, &row.data, 0x80);
        for ssb in [LEVEL_0, LEVEL_1, LEVEL_2, 0x00] {
            let board = Board::filled().ssb(ssb);
            for size in 0..3 {
                expect(&board.clone().room(size), &bad, refuses(9));
            }
            for size in 3..6 {
                expect(&board.clone().room(size), &bad, says(X));
            }
        }
    }
}

// --------------------------------------------------- what is in no table

/// The command tables of 002, as type, record length and codes.
const LISTED: [(u8, usize, &[u8]); 26] = [
    (0x03, 2, &[0x04, 0x00]),
    (0x03, 2, &[0x05, 0x00]),
    (0x03, 2, &[0x05, 0x01]),
    (0x03, 3, &[0x06, 0x00]),
    (0x03, 3, &[0x06, 0x01]),
    (0x03, 3, &[0x0A, 0x04]),
    (0x03, 3, &[0x0A, 0x08]),
    (0x05, 2, &[0x00, 0x00]),
    (0x05, 2, &[0x00, 0x01]),
    (0x05, 2, &[0x00, 0x02]),
    (0x05, 2, &[0x00, 0x03]),
    (0x05, 2, &[0x07, 0x00]),
    (0x05, 2, &[0x07, 0x01]),
    (0x05, 2, &[0x07, 0x02]),
    (0x05, 2, &[0x0B, 0x00]),
    (0x05, 2, &[0x0E, 0x00]),
    (0x05, 2, &[0x0E, 0x01]),
    (0x05, 2, &[0x0F, 0x00]),
    (0x03, 2, &[0x01, 0x00]),
    (0x03, 2, &[0x01, 0x20]),
    (0x03, 2, &[0x01, 0x40]),
    (0x03, 2, &[0x01, 0x80]),
    (0x03, 1, &[0x07]),
    (0x03, 2, &[0x03, 0x00]),
    (0x03, 4, &[0x03, 0x01]),
    (0x04, 5, &[]),
];

fn is_listed(kind: u8, data: &[u8]) -> bool {
    if kind == 0x00 {
        return (1..=128).contains(&data.len());
    }
    let row = |&&(of, length, codes): &&(u8, usize, &[u8])| {
        kind == of && data.len() == length && data.starts_with(codes)
    };
    match LISTED.iter().find(row) {
        // "Data[4]" 00h or 01h.
        Some((0x04, ..)) => data[4] <= 0x01,
        // Note 2: the "bit value" is 00h or 01h.
        Some((0x03, 3, [0x0A, _])) => data[2] <= 0x01,
        found => found.is_some(),
    }
}

/// Refuses all of these with 17, at every level and with no room, and stores nothing.
fn all_unknown(records: impl Iterator<Item = (u8, Vec<u8>)>) -> usize {
    let before = Board::filled().room(0);
    let mut board = before.clone();
    let mut tried = 0;
    for (kind, data) in records.filter(|(kind, data)| !is_listed(*kind, data)) {
        let characters = record(0x0100, kind, &data);
        for ssb in [LEVEL_0, LEVEL_2] {
            let config = Config { ssb, ..before.config };
            let answer = step(config, &characters, &mut board.flash, &mut board.room);
            let want = Answer { outcome: Outcome::Refused(17), length: 0, pages: 0, config };
            assert_eq!(answer, want, "{}", String::from_utf8_lossy(&characters));
        }
        tried += 1;
    }
    assert!(board == before);
    tried
}

#[test]
fn unknown_types() {
    // Each listed row under each other type.
    let shapes: Vec<_> = rows().into_iter().map(|row| row.data).collect();
    let tried =
        all_unknown((0..=255).flat_map(|kind| {
            shapes.iter().map(move |data| (kind, data.clone())).collect::<Vec<_>>()
        }));
    // 31 rows under 252 types, and those under 03h, 04h and 05h that are not theirs; all
    // of them could be programmed.
    assert!(tried > 31 * 252);
    // Intel's end of file is in no table either.
    expect(&Board::open(), b":00000001FF", refuses(17));
}

#[test]
fn unknown_codes_of_two_bytes() {
    let all = |kind| (0..=0xFFFF_u16).map(move |codes| (kind, codes.to_be_bytes().to_vec()));
    // Of type 03h 8 rows have two bytes, of type 05h 11.
    assert_eq!(all_unknown(all(0x03)), 65_536 - 8);
    assert_eq!(all_unknown(all(0x05)), 65_536 - 11);
}

#[test]
fn unknown_codes_of_one_three_and_four_bytes() {
    assert_eq!(all_unknown((0..=255).map(|code| (0x03, vec![code]))), 255);
    assert_eq!(all_unknown((0..=255).map(|code| (0x05, vec![code]))), 256);
    let with = |last: &'static [u8]| {
        (0..=0xFFFF_u16).map(move |codes| (0x03, [&codes.to_be_bytes(), last].concat()))
    };
    // BSB, SBV and the two bits take a 00h; only BSB and SBV a 02h or FFh.
    assert_eq!(all_unknown(with(&[0x00])), 65_536 - 4);
    assert_eq!(all_unknown(with(&[0x02])), 65_536 - 2);
    assert_eq!(all_unknown(with(&[0xFF])), 65_536 - 2);
    // The jump alone has four.
    assert_eq!(all_unknown(with(&[0x00, 0x00])), 65_536 - 1);
}

#[test]
fn unknown_codes_of_type_04() {
    let coded = (0..=255).map(|code| (0x04, vec![0x00, 0x00, 0x00, 0x01, code]));
    assert_eq!(all_unknown(coded), 254);
}

/// No type but 00h has a row at every length; those that 002 lists have theirs.
#[test]
fn unknown_lengths() {
    for row in rows().iter().filter(|row| row.kind != 0x00) {
        let lengths = (0..=255).map(|length| {
            let mut data = row.data.clone();
            data.resize(length, 0x00);
            (row.kind, data)
        });
        let tried = all_unknown(lengths);
        assert!((254..=255).contains(&tried), "{}: {tried}", row.name);
    }
    // Appendix A, as printed, gives the SSB rows three bytes; the command table decides.
    expect(&Board::open(), &record(0, 0x03, &[0x05, 0x01, 0x00]), refuses(17));
}

#[test]
fn fuse_bits_take_00_and_01_only() {
    for bit in [0x04, 0x08] {
        for value in 2..=255 {
            expect(&Board::filled(), &record(0, 0x03, &[0x0A, bit, value]), refuses(17));
        }
    }
    for hsb in 0..=255_u8 {
        let mut board = Board::open();
        board.config.hsb = hsb;
        for (bit, value, after) in [
            (0x04, 0x00, hsb & 0b1011_1111),
            (0x04, 0x01, hsb | 0b0100_0000),
            (0x08, 0x00, hsb & 0b0111_1111),
            (0x08, 0x01, hsb | 0b1000_0000),
        ] {
            expect(&board, &record(0, 0x03, &[0x0A, bit, value]), |board| {
                board.config.hsb = after;
                done(0)
            });
        }
    }
}

#[test]
fn every_value_of_every_configuration_byte() {
    for value in 0..=255_u8 {
        expect(&Board::filled(), &record(0, 0x03, &[0x06, 0x00, value]), |board| {
            board.config.bsb = value;
            done(0)
        });
        expect(&Board::filled(), &record(0, 0x03, &[0x06, 0x01, value]), |board| {
            board.config.sbv = value;
            done(0)
        });
        let shown = format!("{value:02X}.\r\n");
        let mut board = Board::open();
        (board.config.bsb, board.config.sbv, board.config.hsb) = (value, value, !value);
        expect(&board, &record(0, 0x05, &[0x07, 0x01]), says(&shown));
        expect(&board, &record(0, 0x05, &[0x07, 0x02]), says(&shown));
        expect(&board.ssb(value), &record(0, 0x05, &[0x07, 0x00]), says(&shown));
        let mut board = Board::open();
        board.config.hsb = value;
        expect(&board, &record(0, 0x05, &[0x0B, 0x00]), says(&shown));
    }
}

// ------------------------------------------------------ characters, length

fn digit_value(character: u8) -> Option<u8> {
    match character {
        b'0'..=b'9' => Some(character - b'0'),
        b'A'..=b'F' => Some(character - b'A' + 10),
        b'a'..=b'f' => Some(character - b'a' + 10),
        _ => None,
    }
}

/// Each character at each place of a record that reads SSB.
#[test]
fn each_character_at_each_place() {
    let good = b":020000050700F2";
    for place in 0..good.len() {
        for character in 0..=255 {
            let mut characters = *good;
            characters[place] = character;
            let was = digit_value(good[place]);
            match (place, digit_value(character)) {
                (0, _) if character == b':' => {
                    expect(&Board::open(), &characters, says("FF.\r\n"));
                }
                (0, _) | (_, None) => drop(expect(&Board::open(), &characters, refuses(17))),
                (_, value) if value == was => {
                    expect(&Board::open(), &characters, says("FF.\r\n"));
                }
                // Another record length than its characters have.
                (1 | 2, _) => drop(expect(&Board::open(), &characters, refuses(17))),
                // One digit off is never a multiple of 256 off.
                _ => drop(expect(&Board::open(), &characters, says(X))),
            }
        }
    }
}

/// Each of the 65,536 pairs of characters, as the checksum after a sum of 0Eh.
#[test]
fn each_pair_of_characters() {
    let mut characters = *b":020000050700??";
    for high in 0..=255 {
        for low in 0..=255 {
            characters[13..].copy_from_slice(&[high, low]);
            let mut room = [0xA5; 3];
            let read = read_record(&characters, &mut room);
            match (digit_value(high), digit_value(low)) {
                (Some(0xF), Some(0x2)) => {
                    assert_eq!(read, Read::Fields { offset: 0, kind: 0x05, length: 2 });
                    assert_eq!(room, [0x07, 0x00, 0xA5]);
                    continue;
                }
                (Some(_), Some(_)) => assert_eq!(read, Read::WrongChecksum),
                _ => assert_eq!(read, Read::Refused(17)),
            }
            assert_eq!(room, [0xA5; 3]);
        }
    }
}

#[test]
fn small_letters_and_mixed_ones() {
    // 03 + AB + CD + 03 + 06 + 01 + 9F = 224h, so DCh.
    for text in [":03ABCD0306019FDC", ":03abcd0306019fdc", ":03AbCd0306019fDc"] {
        expect(&Board::open(), text.as_bytes(), |board| {
            board.config.sbv = 0x9F;
            done(0)
        });
    }
    // The answers are in capitals all the same.
    let mut board = Board::open();
    board.config.bsb = 0xAB;
    expect(&board, b":020000050701f1", says("AB.\r\n"));
    board.flash[0xABCD] = 0xEF;
    // 05 + 04 + twice AB + CD = 2F9h, so 07h to display and 06h to check.
    expect(&board, b":05000004abcdabcd0007", says("ABCD=EF\r\n"));
    expect(&board, b":05000004abcdabcd0106", says("ABCD\r\n"));
    expect(&board, b":05000004abcdabcd0107", says(X));
}

#[test]
fn wrong_lengths() {
    for data in [vec![], vec![0x07], vec![0x07, 0x00], vec![0x00; 16], vec![0x11; 255]] {
        let good = record(0x0100, 0x00, &data);
        assert_eq!(good.len(), 11 + 2 * data.len());
        for length in 0..good.len() {
            expect(&Board::open(), &good[..length], refuses(17));
        }
        let mut longer = good.clone();
        for _ in 0..20 {
            longer.push(b'0');
            expect(&Board::open(), &longer, refuses(17));
        }
    }
    for length in [521, 522, 523, 524, 1_033, 10_000] {
        let mut long = vec![b'0'; length];
        long[0] = b':';
        expect(&Board::open(), &long, refuses(17));
    }
}

/// The field says another length than the characters have; the sum is zero.
#[test]
fn the_record_length_field_says_otherwise() {
    let good = record(0x0010, 0x00, &[0x55, 0xAA, 0x01]);
    for length in (0..=255_u8).filter(|&n| n != 3) {
        let field = format!("{length:02X}");
        let mut characters = good.clone();
        characters[1..3].copy_from_slice(field.as_bytes());
        let checksum = (1_024 - (u32::from(length) + 0x10 + 0x55 + 0xAA + 0x01)) % 256;
        let at = characters.len() - 2;
        characters[at..].copy_from_slice(format!("{checksum:02X}").as_bytes());
        expect(&Board::open(), &characters, refuses(17));
    }
}

#[test]
fn each_checksum() {
    for row in rows() {
        for off in 1..=255 {
            let bad = record_off_by(0x127E, row.kind, &row.data, off);
            expect(&Board::filled(), &bad, says(X));
        }
    }
}

// ------------------------------------------------------------- programming

/// Each length that the field can say: 1 to 128 are taken.
#[test]
fn program_lengths() {
    let bytes = Xorshift(128).bytes(255);
    for length in 0..=255 {
        let characters = record(0x3400, 0x00, &bytes[..length]);
        if (1..=128).contains(&length) {
            expect(&Board::open(), &characters, |board| {
                board.flash[0x3400..0x3400 + length].copy_from_slice(&bytes[..length]);
                done(1)
            });
        } else {
            expect(&Board::open(), &characters, refuses(17));
            expect(&Board::open().ssb(LEVEL_1), &characters, refuses(17));
        }
    }
}

/// "the pages that its bytes meet": each start in a page with each length.
#[test]
fn program_pages() {
    let mut random = Xorshift(0x1234_5678);
    let mut board = Board::filled();
    let mut want = board.flash.clone();
    for start in 0x4F80..0x5000_u16 {
        for length in 1..=128_usize {
            let bytes = random.bytes(length);
            let answer = board.send(&record(start, 0x00, &bytes));
            let from = usize::from(start);
            want[from..from + length].copy_from_slice(&bytes);
            // A further page is met at 5000h.
            let pages = if from + length > 0x5000 { 2 } else { 1 };
            assert_eq!((answer.outcome, answer.length), (Outcome::Answered, 3));
            assert_eq!(answer.pages, pages, "{start:04X} {length}");
        }
        assert!(board.flash == want);
    }
}

#[test]
fn program_up_to_the_last_byte() {
    for start in 0xFF70..=0xFFFF_u16 {
        for length in [1, 2, 15, 16, 17, 127, 128] {
            let bytes = vec![0x3C; length];
            let characters = record(start, 0x00, &bytes);
            let from = usize::from(start);
            if from + length <= 65_536 {
                expect(&Board::open(), &characters, |board| {
                    board.flash[from..from + length].fill(0x3C);
                    done(if from < 0xFF80 && from + length > 0xFF80 { 2 } else { 1 })
                });
            } else {
                for ssb in [LEVEL_0, LEVEL_1, LEVEL_2, 0x00] {
                    expect(&Board::open().ssb(ssb), &characters, refuses(17));
                    expect(&Board::open().ssb(ssb).room(0), &characters, refuses(17));
                }
            }
        }
    }
}

/// "Programmed bytes take the new values and all others stay": no and-ing with
/// what the flash holds, and FFh is stored too.
#[test]
fn program_over_old_bytes() {
    let mut board = Board::open();
    board.flash[0x8000..0x8004].copy_from_slice(&[0x00, 0x00, 0xF0, 0x0F]);
    expect(&board, &record(0x8000, 0x00, &[0xFF, 0x55, 0x0F]), |board| {
        board.flash[0x8000..0x8004].copy_from_slice(&[0xFF, 0x55, 0x0F, 0x0F]);
        done(1)
    });
    // The same again is stored again.
    expect(&board, &record(0x8000, 0x00, &[0x00]), |_| done(1));
}

// ------------------------------------------------- display and blank check

#[test]
fn display_by_hand() {
    let mut board = Board::open().room(200);
    board.flash[0xFFFE..].copy_from_slice(&[0x01, 0xFE]);
    expect(&board, &look(0xFFFF, 0xFFFF, 0), says("FFFF=FE\r\n"));
    expect(&board, &look(0xFFFE, 0xFFFF, 0), says("FFFE=01FE\r\n"));
    expect(&board, &look(0x0000, 0x0000, 0), says("0000=FF\r\n"));
    // From the start address on, not from a multiple of 16.
    board.flash[0x0F0F..=0x0F1F].copy_from_slice(&[
        0x10, 0x32, 0x54, 0x76, 0x98, 0xBA, 0xDC, 0xFE, 0x01, 0x23, 0x45, 0x67, 0x89, 0xAB, 0xCD,
        0xEF, 0x5A,
    ]);
    let one = "0F0F=1032547698BADCFE0123456789ABCDEF\r\n";
    assert_eq!(one.len(), 39);
    expect(&board, &look(0x0F0F, 0x0F1E, 0), says(one));
    expect(&board, &look(0x0F0F, 0x0F1F, 0), says(&format!("{one}0F1F=5A\r\n")));
    let short = &one[..35];
    expect(&board, &look(0x0F0F, 0x0F1D, 0), says(&format!("{short}\r\n")));
}

/// Each length up to a few lines, with the room that just takes it and one less.
#[test]
fn display_lengths_and_rooms() {
    let filled = Board::filled();
    for length in 1..=70_u16 {
        for start in [0x0000, 0x007B, 0x7FF1, 0xFFFF - length + 1] {
            let end = start + (length - 1);
            let want = lines(&filled.flash, start, end);
            let by_hand = 7 * usize::from(length.div_ceil(16)) + 2 * usize::from(length);
            assert_eq!(want.len(), by_hand);
            let board = filled.clone();
            expect(&board.clone().room(want.len()), &look(start, end, 0), says(&want));
            expect(&board.clone().room(want.len() + 5), &look(start, end, 0), says(&want));
            expect(&board.clone().room(want.len() - 1), &look(start, end, 0), refuses(9));
            expect(&board.ssb(LEVEL_1).room(0), &look(start, end, 0), refuses(9));
        }
    }
}

/// "No limit to a display but the room": 4,096 lines of 39.
#[test]
fn display_the_whole_flash() {
    let board = Board::filled();
    let want = lines(&board.flash, 0x0000, 0xFFFF);
    assert_eq!(want.len(), 4_096 * 39);
    assert_eq!(&want[..39], "0000=00070E151C232A31383F464D545B6269\r\n");
    expect(&board.clone().room(159_744), &look(0x0000, 0xFFFF, 0), says(&want));
    expect(&board.clone().room(160_000), &look(0x0000, 0xFFFF, 0), says(&want));
    expect(&board.clone().room(159_743), &look(0x0000, 0xFFFF, 0), refuses(9));
    // 4,095 whole lines and one of 15 bytes.
    let want = lines(&board.flash, 0x0001, 0xFFFF);
    assert_eq!(want.len(), 159_742);
    assert!(want.contains("\r\nFFF1="));
    expect(&board.room(159_742), &look(0x0001, 0xFFFF, 0), says(&want));
}

#[test]
fn display_every_byte_value() {
    let mut board = Board::open().room(700);
    for value in 0..=255_u8 {
        board.flash[0x2000 + usize::from(value)] = value;
    }
    let mut want = String::new();
    for line in 0..16 {
        want.push_str(&format!("20{line:X}0="));
        (0..16).for_each(|low| want.push_str(&format!("{line:X}{low:X}")));
        want.push_str("\r\n");
    }
    expect(&board, &look(0x2000, 0x20FF, 0), says(&want));
}

#[test]
fn backward_ranges() {
    for (start, end) in [(0x0001, 0x0000), (0xFFFF, 0x0000), (0x8000, 0x7FFF), (0x0100, 0x00FF)] {
        for code in [0, 1] {
            for ssb in [LEVEL_0, LEVEL_1, LEVEL_2, 0x00] {
                let board = Board::filled().ssb(ssb);
                expect(&board, &look(start, end, code), refuses(17));
                expect(&board.room(0), &look(start, end, code), refuses(17));
            }
        }
    }
}

/// The first byte that isn't FFh at each place around the ends of pages.
#[test]
fn blank_check_finds_the_first() {
    let places = [0x0000, 0x0001, 0x007F, 0x0080, 0x0081, 0x00FF, 0x0100, 0x1234, 0xFF7F, 0xFFFE];
    for &place in &places {
        for value in [0x00, 0x7F, 0xFE] {
            let mut board = Board::open().ssb(LEVEL_2);
            board.flash[usize::from(place)] = value;
            // Behind it more, which don't count.
            board.flash[0xFFFF] = 0x00;
            let found = format!("{place:04X}\r\n");
            for start in places.iter().copied().filter(|&start| start <= place) {
                expect(&board, &look(start, 0xFFFF, 1), says(&found));
                expect(&board, &look(start, place, 1), says(&found));
                if start < place {
                    expect(&board, &look(start, place - 1, 1), says(".\r\n"));
                }
            }
            expect(&board, &look(place + 1, 0xFFFF, 1), says("FFFF\r\n"));
        }
    }
    expect(&Board::open(), &look(0x0000, 0xFFFF, 1), says(".\r\n"));
}

/// Runs a blank check, which answers with the first address, or `.`.
#[track_caller]
fn checks(board: &mut Board, start: u16, end: u16, first: Option<u16>) {
    let want = first.map_or(".\r\n".to_string(), |at| format!("{at:04X}\r\n"));
    let config = board.config;
    let answer = board.send(&look(start, end, 1));
    let length = want.len();
    assert_eq!(answer, Answer { outcome: Outcome::Answered, length, pages: 0, config });
    assert_eq!(&board.room[..length], want.as_bytes(), "{start:04X}h-{end:04X}h");
}

/// No byte around the range counts, of its own pages either: each range, from one
/// byte on, in the first two pages, in the two around 8000h and in the last two,
/// with all the other flash not FFh.
#[test]
fn blank_check_keeps_to_its_range() {
    let mut board = Board::open();
    for first in [0x0000_u16, 0x7F80, 0xFF00] {
        for start in first..=first + 0xFF {
            board.flash.fill(0x00);
            for end in start..=first + 0xFF {
                board.flash[usize::from(end)] = 0xFF;
                checks(&mut board, start, end, None);
                board.flash[usize::from(end)] = 0xFE;
                checks(&mut board, start, end, Some(end));
                board.flash[usize::from(start)] = 0x7F;
                checks(&mut board, start, end, Some(start));
                board.flash[usize::from(start)] = 0xFF;
                board.flash[usize::from(end)] = 0xFF;
            }
        }
    }
}

/// The first and the last byte of each of the 512 pages, in a range over all of
/// them, and in one that leaves out the first byte and the last of the flash.
#[test]
fn blank_check_looks_at_each_page() {
    let mut board = Board::open();
    for page in 0..512_u16 {
        for place in [page * 128, page * 128 + 127] {
            board.flash[usize::from(place)] = 0xFE;
            checks(&mut board, 0x0000, 0xFFFF, Some(place));
            let inside = place != 0x0000 && place != 0xFFFF;
            checks(&mut board, 0x0001, 0xFFFE, inside.then_some(place));
            board.flash[usize::from(place)] = 0xFF;
        }
    }
}

/// The answer's own length decides: `.` fits where an address does not.
#[test]
fn blank_check_rooms() {
    let mut board = Board::open().ssb(LEVEL_2);
    board.flash[0x0200] = 0x00;
    for size in 0..9 {
        let board = board.clone().room(size);
        let blank = look(0x0000, 0x01FF, 1);
        let not = look(0x0000, 0x0200, 1);
        if size < 3 {
            expect(&board, &blank, refuses(9));
        } else {
            expect(&board, &blank, says(".\r\n"));
        }
        if size < 6 {
            expect(&board, &not, refuses(9));
        } else {
            expect(&board, &not, says("0200\r\n"));
        }
    }
}

// ---------------------------------------------------------- erases, starts

/// Each block's first and last byte, and its neighbours, which stay.
#[test]
fn erase_edges() {
    for (code, from, to, pages) in [
        (0x00, 0x0000, 0x1FFF, 64),
        (0x20, 0x2000, 0x3FFF, 64),
        (0x40, 0x4000, 0x7FFF, 128),
        (0x80, 0x8000, 0xFFFF, 256),
    ] {
        let mut board = Board::open();
        board.flash.fill(0x00);
        let characters = record(0xFFFF, 0x03, &[0x01, code]);
        let after = expect(&board, &characters, |board| {
            board.flash[from..=to].fill(0xFF);
            done(pages)
        });
        // Blank already, and stored again all the same.
        expect(&after, &characters, |_| done(pages));
    }
    expect(&Board::open(), &record(0, 0x03, &[0x07]), |_| done(512));
}

/// "SBV F0h" and "HSB stays", whatever they were.
#[test]
fn erases_of_any_configuration() {
    for value in 0..=255 {
        let mut board = Board::open();
        board.config = Config { bsb: value, sbv: !value, ssb: value, hsb: value };
        expect(&board, &record(0, 0x03, &[0x07]), |board| {
            board.config = Config { bsb: 0xFF, sbv: 0xF0, ssb: 0xFF, hsb: value };
            done(512)
        });
        expect(&board.ssb(LEVEL_0), &record(0, 0x03, &[0x04, 0x00]), |board| {
            board.config = Config { bsb: 0xFF, sbv: 0xF0, ssb: 0xFF, hsb: value };
            done(0)
        });
    }
}

#[test]
fn starts_at_any_address_in_any_room() {
    for address in [0x0000, 0x0001, 0x7FFF, 0x8000, 0xF000, 0xFFFF_u16] {
        let [high, low] = address.to_be_bytes();
        let characters = record(0x4321, 0x03, &[0x03, 0x01, high, low]);
        for size in [0, 1, 3, 64] {
            let board = Board::filled().ssb(LEVEL_2).room(size);
            let after =
                expect(&board, &characters, |_| Said(Outcome::StartAt(address), String::new(), 0));
            // "a record after a start is answered like any other".
            expect(&after.room(8), &record(0, 0x05, &[0x07, 0x00]), says("FC.\r\n"));
        }
    }
}

// -------------------------------------------------------- order of refusals

/// A display of one byte with these faults, numbered by P2's order: 0 is refusal
/// 2, 1 is 17 for form, 2 is X, 3 is 17 for the type, 4 is 17 for the range, 5 is
/// P, 6 is the room.
fn faulty(faults: &[usize]) -> (Board, Vec<u8>) {
    let has = |fault| faults.contains(&fault);
    let mut board = Board::filled();
    if has(0) {
        board.flash.pop();
    }
    // 04h is no code of type 04h, and 0017h lies before 0018h.
    let code = if has(3) { 0x04 } else { 0x00 };
    let end = if has(4) { 0x17 } else { 0x18 };
    let off = if has(2) { 1 } else { 0 };
    let mut characters = record_off_by(0, 0x04, &[0x00, 0x18, 0x00, end, code], off);
    if has(1) {
        characters[7] = b'G';
    }
    if has(5) {
        board.config.ssb = 0x00;
    }
    // Too short for a line, and for X and P too.
    if has(6) {
        board = board.room(2);
    }
    (board, characters)
}

#[test]
fn refusals_come_in_their_order() {
    for mask in 0..1_usize << 7 {
        let faults: Vec<_> = (0..7).filter(|fault| mask >> fault & 1 == 1).collect();
        let (board, characters) = faulty(&faults);
        let fits = !faults.contains(&6);
        match faults.first() {
            Some(0) => drop(expect(&board, &characters, refuses(2))),
            Some(1 | 3 | 4) => drop(expect(&board, &characters, refuses(17))),
            Some(2) if fits => drop(expect(&board, &characters, says(X))),
            Some(5) if fits => drop(expect(&board, &characters, says(P))),
            Some(_) => drop(expect(&board, &characters, refuses(9))),
            // 0018h is 7 * 24 = A8h.
            None => drop(expect(&board, &characters, says("0018=A8\r\n"))),
        }
    }
}

/// "17 ... a backward range or one past FFFFh; then `P`".
#[test]
fn a_range_comes_before_the_level() {
    for ssb in (0..=255).filter(|&ssb| ssb != LEVEL_0) {
        let board = Board::filled().ssb(ssb);
        expect(&board, &record(0xFFFF, 0x00, &[1, 2]), refuses(17));
        expect(&board, &record(0xFF81, 0x00, &[0; 128]), refuses(17));
        expect(&board, &look(0x0002, 0x0001, 0), refuses(17));
        expect(&board, &look(0x0002, 0x0001, 1), refuses(17));
    }
}

/// "nothing is stored": what would be stored, in rooms of 0, 1 and 2.
#[test]
fn nothing_is_stored_without_room() {
    let stored: [(u8, &[u8]); 12] = [
        (0x00, &[0x55; 128]),
        (0x03, &[0x01, 0x00]),
        (0x03, &[0x01, 0x20]),
        (0x03, &[0x01, 0x40]),
        (0x03, &[0x01, 0x80]),
        (0x03, &[0x04, 0x00]),
        (0x03, &[0x05, 0x00]),
        (0x03, &[0x05, 0x01]),
        (0x03, &[0x06, 0x00, 0x77]),
        (0x03, &[0x06, 0x01, 0x77]),
        (0x03, &[0x07]),
        (0x03, &[0x0A, 0x04, 0x00]),
    ];
    for (kind, data) in stored {
        for size in 0..3 {
            expect(&Board::filled().room(size), &record(0x2345, kind, data), refuses(9));
        }
        // It was the room: with one character more it is stored.
        let mut board = Board::filled().room(3);
        let before = board.clone();
        let answer = board.send(&record(0x2345, kind, data));
        assert_eq!((answer.outcome, answer.length), (Outcome::Answered, 3));
        assert!(board.flash != before.flash || board.config != before.config);
    }
}

#[test]
fn refusal_2_by_size() {
    for size in [0, 1, 32_768, 65_535, 65_537, 131_072] {
        for (_, characters) in [faulty(&[]), faulty(&[1]), faulty(&[2]), faulty(&[3])] {
            let mut board = Board::filled().room(0);
            board.flash.resize(size, 0x00);
            expect(&board, &characters, refuses(2));
            expect(&board.room(64), &characters, refuses(2));
        }
        let mut board = Board::filled();
        board.flash.resize(size, 0x00);
        expect(&board, b"", refuses(2));
        expect(&board, &record(0, 0x03, &[0x03, 0x00]), refuses(2));
    }
}

// --------------------------------------------------------- reader and writer

#[test]
fn the_reader_gives_the_fields() {
    let mut room = [0xA5; 8];
    let read = read_record(b":03ABCD42010203E1", &mut room);
    // 03 + AB + CD + 42 + 01 + 02 + 03 = 1C3h, so 3Dh.
    assert_eq!(read, Read::WrongChecksum);
    assert_eq!(room, [0xA5; 8]);
    let read = read_record(b":03ABCD420102033D", &mut room);
    assert_eq!(read, Read::Fields { offset: 0xABCD, kind: 0x42, length: 3 });
    assert_eq!(room, [0x01, 0x02, 0x03, 0xA5, 0xA5, 0xA5, 0xA5, 0xA5]);
    let mut room = [0xA5; 2];
    assert_eq!(
        read_record(b":00000001FF", &mut room),
        Read::Fields { offset: 0, kind: 1, length: 0 }
    );
    assert_eq!(
        read_record(b":00000001ff", &mut []),
        Read::Fields { offset: 0, kind: 1, length: 0 }
    );
    assert_eq!(room, [0xA5; 2]);
}

/// "17 (character, length); then wrong checksum; then 9".
#[test]
fn the_reader_refuses_in_its_order() {
    let good = b":03ABCD420102033D";
    for size in 0..6 {
        let mut room = vec![0xA5; size];
        for (characters, want) in [
            (&b":03ABCD420102033"[..], Read::Refused(17)),
            (b":03ABCD420102033D0", Read::Refused(17)),
            (b":03ABCD4201020G3D", Read::Refused(17)),
            (b":03ABCD4201020G3E", Read::Refused(17)),
            (b"x03ABCD420102033D", Read::Refused(17)),
            (b"", Read::Refused(17)),
            (b":", Read::Refused(17)),
            (b":03ABCD420102033E", Read::WrongChecksum),
        ] {
            assert_eq!(read_record(characters, &mut room), want);
            assert!(room.iter().all(|&byte| byte == 0xA5));
        }
        let read = read_record(good, &mut room);
        if size < 3 {
            assert_eq!(read, Read::Refused(9));
            assert!(room.iter().all(|&byte| byte == 0xA5));
        } else {
            assert_eq!(read, Read::Fields { offset: 0xABCD, kind: 0x42, length: 3 });
            assert_eq!(room[..3], [1, 2, 3]);
            assert!(room[3..].iter().all(|&byte| byte == 0xA5));
        }
    }
}

#[test]
fn the_writer_by_hand() {
    let mut room = [0xA5; 20];
    assert_eq!(write_record(0xABCD, 0x42, &[1, 2, 3], &mut room), Written::Characters(17));
    assert_eq!(&room, b":03ABCD420102033D\xA5\xA5\xA5");
    let mut room = [0xA5; 13];
    assert_eq!(write_record(0x0010, 0x00, &[0x55], &mut room), Written::Characters(13));
    assert_eq!(&room, b":01001000559A");
    // A sum of zero has the checksum zero.
    assert_eq!(write_record(0, 0, &[], &mut room), Written::Characters(11));
    assert_eq!(&room, b":00000000009A");
}

#[test]
fn the_writer_refuses_in_its_order() {
    let data = [0x5A; 300];
    for length in [0, 1, 2, 127, 128, 129, 254, 255] {
        let needs = 11 + 2 * length;
        for size in (needs - 3..needs).chain([0, 1]) {
            let mut room = vec![0xA5; size];
            assert_eq!(write_record(1, 2, &data[..length], &mut room), Written::Refused(9));
            assert!(room.iter().all(|&byte| byte == 0xA5));
        }
        for size in needs..needs + 3 {
            let mut room = vec![0xA5; size];
            assert_eq!(write_record(1, 2, &data[..length], &mut room), Written::Characters(needs));
            assert_eq!(room[..needs], record(1, 2, &data[..length]));
            assert!(room[needs..].iter().all(|&byte| byte == 0xA5));
        }
    }
    for length in [256, 257, 300] {
        for size in [0, 11, 523, 2_000] {
            let mut room = vec![0xA5; size];
            assert_eq!(write_record(1, 2, &data[..length], &mut room), Written::Refused(17));
            assert!(room.iter().all(|&byte| byte == 0xA5));
        }
    }
}

/// Reading what was written gives the same, for every offset byte, type and length.
#[test]
fn written_and_read_back() {
    let mut random = Xorshift(0xFEDC_BA98_7654_3210);
    for turn in 0..4_000 {
        let (offset, kind) = (random.next() as u16, random.byte());
        let data = random.bytes(turn % 256);
        let mut characters = [0; 521];
        let Written::Characters(length) = write_record(offset, kind, &data, &mut characters) else {
            panic!("there is room");
        };
        assert_eq!(characters[..length], record(offset, kind, &data));
        let mut room = [0; 255];
        let read = read_record(&characters[..length], &mut room);
        assert_eq!(read, Read::Fields { offset, kind, length: data.len() });
        assert_eq!(room[..data.len()], data);
        // And a record that is read is written back, in capitals.
        let small = characters[..length].to_ascii_lowercase();
        assert_eq!(read_record(&small, &mut room), read);
        let mut again = [0; 521];
        assert_eq!(
            write_record(offset, kind, &room[..data.len()], &mut again),
            Written::Characters(length)
        );
        assert_eq!(again, characters);
    }
}

// ------------------------------------------------------------- whole courses

/// From the delivered board to a closed one again.
#[test]
fn a_board_is_loaded_and_closed() {
    let mut board = Board::filled().room(64);
    board.config = delivered();
    board = expect(&board, b":0100100055" as &[u8], refuses(17));
    board = expect(&board, &example("01 0010 00 55 9A"), says(P));
    board = expect(&board, &example("01 0000 03 07 F5"), |board| {
        board.flash.fill(0xFF);
        board.config.ssb = 0xFF;
        done(512)
    });
    board.room.fill(0xA5);
    board = expect(&board, &example("01 0010 00 55 9A"), |board| {
        board.flash[0x0010] = 0x55;
        done(1)
    });
    // Level 1: no writing, but reading, and level 2 may be written.
    board = expect(&board, &record(0, 0x03, &[0x05, 0x00]), |board| {
        board.config.ssb = 0xFE;
        done(0)
    });
    board = expect(&board, &example("01 0010 00 55 9A"), says(P));
    board = expect(&board, &look(0x0010, 0x0011, 0), says("0010=55FF\r\n"));
    board = expect(&board, &record(0, 0x03, &[0x05, 0x00]), says(P));
    board = expect(&board, &example("02 0000 03 05 01 F5"), |board| {
        board.config.ssb = 0xFC;
        done(0)
    });
    board = expect(&board, &look(0x0010, 0x0011, 0), says(P));
    board = expect(&board, &example("02 0000 03 05 01 F5"), says(P));
    expect(&board, &look(0x0000, 0xFFFF, 1), says("0010\r\n"));
}

/// A record now and then good, of any row, with any offset and range.
fn any_record(random: &mut Xorshift) -> Vec<u8> {
    let all = rows();
    let row = &all[random.below(all.len())];
    let mut data = row.data.clone();
    let length = random.below(130);
    match row.kind {
        0x00 => data = random.bytes(length),
        0x04 => {
            let (one, other) = (random.next() as u16, random.next() as u16);
            let near = one.saturating_add(random.below(80) as u16);
            let end = random.pick(&[one, near, near, other]);
            data[..2].copy_from_slice(&one.to_be_bytes());
            data[2..4].copy_from_slice(&end.to_be_bytes());
        }
        _ if random.below(4) == 0 => *data.last_mut().unwrap() = random.byte(),
        _ => {}
    }
    let offset = random.next() as u16;
    let off = random.pick(&[0, 0, 0, 0, 0, 0, 0, 1]);
    let mut characters = record_off_by(offset, row.kind, &data, off);
    if random.below(16) == 0 {
        let place = random.below(characters.len());
        characters[place] = random.byte();
    }
    characters
}

/// Demand 3 for this plug: at level 2, two boards alike but for flash bytes of
/// which neither is FFh give the same answers in the same rooms.
#[test]
fn level_2_tells_nothing_but_blankness() {
    let mut random = Xorshift(0x0F1E_2D3C_4B5A_6978);
    let one = Board::filled();
    let mut other = one.clone();
    for byte in other.flash.iter_mut().filter(|byte| **byte != 0xFF) {
        *byte = random.byte() & 0x7F;
    }
    assert!(one.flash != other.flash);
    for turn in 0..6_000_usize {
        let ssb = [0xFC, turn as u8][turn % 2];
        if level_of(ssb) != 2 {
            continue;
        }
        let characters = any_record(&mut random);
        let size = random.pick(&[0, 2, 3, 5, 6, 64, 3_000]);
        let mut first = one.clone().ssb(ssb).room(size);
        let mut second = other.clone().ssb(ssb).room(size);
        assert_eq!(first.send(&characters), second.send(&characters));
        assert_eq!(first.config, second.config);
        assert!(first.room == second.room);
    }
}

/// "its converse where the room takes that check's answer": where one board is
/// blank and the other is not, the blank check of that byte tells.
#[test]
fn level_2_tells_blankness() {
    for ssb in [0xFC, 0x00, 0xFD] {
        for place in [0x0000, 0x007F, 0x0080, 0x7FFF, 0x8000, 0xFFFF_u16] {
            let one = Board::open().ssb(ssb).room(6);
            let mut other = one.clone();
            other.flash[usize::from(place)] = 0xFE;
            expect(&one, &look(place, place, 1), says(".\r\n"));
            expect(&other, &look(place, place, 1), says(&format!("{place:04X}\r\n")));
        }
    }
}

/// Anything at all is answered, and what may not move stays.
#[test]
fn step_is_total() {
    let mut random = Xorshift(0x1357_9BDF_0246_8ACE);
    let mut board = Board::filled();
    for _ in 0..20_000 {
        let length = random.below(40);
        let mut characters = any_record(&mut random);
        if random.below(8) == 0 {
            characters = random.bytes(length);
        }
        let size = random.pick(&[0, 1, 2, 3, 4, 5, 6, 7, 40, 300]);
        board.room = vec![0xA5; size];
        let byte = random.byte();
        board.config.ssb = random.pick(&[0xFF, 0xFF, 0xFE, 0xFC, byte]);
        let before = board.clone();
        let answer = board.send(&characters);
        assert!(board.room[answer.length..].iter().all(|&byte| byte == 0xA5));
        match answer.outcome {
            Outcome::Refused(number) => {
                assert!([9, 17].contains(&number));
                assert!(board == before && answer.length == 0 && answer.pages == 0);
            }
            Outcome::StartReset | Outcome::StartAt(_) => {
                assert!(board == before && answer.length == 0 && answer.pages == 0);
            }
            Outcome::Answered => {
                let said = &board.room[..answer.length];
                assert!(said.ends_with(b"\r\n"));
                if said == b"X\r\n" || said == b"P\r\n" {
                    assert!(board.flash == before.flash && board.config == before.config);
                }
                assert!(answer.pages == 0 || said == b".\r\n");
            }
        }
    }
}
