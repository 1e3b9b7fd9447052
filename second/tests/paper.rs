//! The paper, sentence by sentence, with P1, P4 and P5 of the change requests.
//! Every expectation is worked out from their words; none is taken from what the
//! program printed.

use std::io::Write;
use std::process::{Command as Process, Stdio};

use second::*;

// ---------------------------------------------------------------- the bench

const GETSTATUS: [u8; 8] = [0xA1, 3, 0, 0, 0, 0, 6, 0];
const GETSTATE: [u8; 8] = [0xA1, 5, 0, 0, 0, 0, 1, 0];
const CLRSTATUS: [u8; 8] = [0x21, 4, 0, 0, 0, 0, 0, 0];
const ABORT: [u8; 8] = [0x21, 6, 0, 0, 0, 0, 0, 0];
const DETACH: [u8; 8] = [0x21, 0, 0, 0, 0, 0, 0, 0];

const LEVEL_0: u8 = 0xFF;
const LEVEL_1: u8 = 0xFE;
const LEVEL_2: u8 = 0xFC;

/// "SSB FFh is level 0, FEh level 1, FCh level 2", and by P1 "a value other than
/// FFh and FEh is level 2".
fn level_of(ssb: u8) -> Level {
    match ssb {
        0xFF => Level::Zero,
        0xFE => Level::One,
        _ => Level::Two,
    }
}

/// The 254 values of level 2: FCh and the odd ones.
fn level_2_values() -> impl Iterator<Item = u8> {
    (0..=255).filter(|&ssb| level_of(ssb) == Level::Two)
}

/// The states that refusals 6 and 7 let through; P5: "6 now admits state 4".
const STATES: [u8; 7] = [2, 3, 4, 5, 6, 9, 10];

/// A record with a busy count of 0.
fn record(state: u8, status: u8, pending: Pending) -> Session {
    Session { state, status, pending, busy: 0 }
}

fn dnload(length: usize) -> [u8; 8] {
    let [low, high] = u16::try_from(length).unwrap().to_le_bytes();
    [0x21, 1, 0, 0, 0, 0, low, high]
}

fn upload(length: u16) -> [u8; 8] {
    let [low, high] = length.to_le_bytes();
    [0xA1, 2, 0, 0, 0, 0, low, high]
}

/// Everything a request can touch.
#[derive(Clone, Debug, PartialEq)]
struct Rig {
    session: Session,
    config: Config,
    flash: Vec<u8>,
    eeprom: Vec<u8>,
    reply: Vec<u8>,
}

impl Rig {
    /// A delivered board, all memory FFh, in state 2, with a marked reply.
    fn new() -> Rig {
        Rig {
            session: record(2, 0, Pending::Nothing),
            config: Config { bytes: [0xFF, 0xFC, 0xFE, 0xFF, 0xFF, 0xFF, 0xFF], hsb: 0xBB },
            flash: vec![0xFF; 32_768],
            eeprom: vec![0xFF; 1_024],
            reply: vec![0xA5; 1_024],
        }
    }

    /// Memories whose every byte tells its address a little.
    fn filled() -> Rig {
        let mut rig = Rig::new();
        for (at, byte) in rig.flash.iter_mut().enumerate() {
            *byte = (at * 7 + at / 256) as u8;
        }
        for (at, byte) in rig.eeprom.iter_mut().enumerate() {
            *byte = (at * 5 + 3 + at / 256) as u8;
        }
        rig
    }

    fn at(mut self, state: u8, status: u8, pending: Pending) -> Rig {
        self.session = record(state, status, pending);
        self
    }

    fn busy(mut self, count: u16) -> Rig {
        self.session.busy = count;
        self
    }

    fn ssb(mut self, value: u8) -> Rig {
        self.config.bytes[5] = value;
        self
    }

    fn send(&mut self, setup: &[u8], data: &[u8]) -> Answer {
        step(
            &mut self.session,
            &mut self.config,
            setup,
            data,
            &mut self.flash,
            &mut self.eeprom,
            &mut self.reply,
        )
    }

    fn sent(&self, answer: &Answer) -> &[u8] {
        &self.reply[..answer.length]
    }
}

/// What the paper says of a request: outcome, bytes sent, pages.
struct Said(Outcome, Vec<u8>, usize);

/// Runs one request and compares all of it with what `paper` makes of a copy:
/// answer, session, configuration, both memories, and the reply, whose bytes
/// past those sent stay.
#[track_caller]
fn expect(before: &Rig, setup: &[u8], data: &[u8], paper: impl FnOnce(&mut Rig) -> Said) -> Rig {
    let mut want = before.clone();
    let Said(outcome, sent, pages) = paper(&mut want);
    want.reply[..sent.len()].copy_from_slice(&sent);
    let mut got = before.clone();
    let answer = got.send(setup, data);
    assert_eq!(answer, Answer { outcome, length: sent.len(), pages }, "{setup:02X?}");
    assert_eq!(got.session, want.session, "{setup:02X?}");
    assert_eq!(got.config, want.config, "{setup:02X?}");
    assert!(got == want, "a memory or the reply differs after {setup:02X?}");
    got
}

#[track_caller]
fn command(before: &Rig, payload: &[u8], paper: impl FnOnce(&mut Rig) -> Said) -> Rig {
    expect(before, &dnload(payload.len()), payload, paper)
}

/// "Stall: state 10, status 0Fh, nothing pending. In state 10 the status there already stays."
/// P5: the count "is cleared ... by every stall".
fn stalls(rig: &mut Rig) -> Said {
    if rig.session.state != 10 {
        rig.session.status = 0x0F;
    }
    rig.session.state = 10;
    rig.session.pending = Pending::Nothing;
    rig.session.busy = 0;
    Said(Outcome::Stall, vec![], 0)
}

/// "A status above is set with state 10 and nothing pending, and nothing else moves":
/// the busy count neither.
fn sets(status: u8) -> impl FnOnce(&mut Rig) -> Said {
    move |rig| {
        rig.session = Session { state: 10, status, pending: Pending::Nothing, ..rig.session };
        Said(Outcome::Done, vec![], 0)
    }
}

/// "An accepted command sets status 00h, state 3 and what is pending"; P5: and the
/// busy count "to its page count".
fn taken(rig: &mut Rig, pending: Pending, pages: usize) -> Said {
    let busy = u16::try_from(pages).unwrap();
    rig.session = Session { state: 3, status: 0x00, pending, busy };
    Said(Outcome::Done, vec![], pages)
}

/// "sets 05h with state 3 and the first such address pending"; P5: "a blank check that
/// gives 05h too, sets it to its page count", which is 0.
fn finds(rig: &mut Rig, address: u16) -> Said {
    rig.session = record(3, 0x05, Pending::Blank(address));
    Said(Outcome::Done, vec![], 0)
}

/// "state 2, status 00h, nothing pending"; CLRSTATUS and UPLOAD are not among what
/// clears the busy count.
fn idles(rig: &mut Rig) -> Said {
    rig.session = Session { state: 2, status: 0x00, pending: Pending::Nothing, ..rig.session };
    Said(Outcome::Done, vec![], 0)
}

/// The same for ABORT, which clears it.
fn aborts(rig: &mut Rig) -> Said {
    rig.session.busy = 0;
    idles(rig)
}

/// "GETSTATUS: status, three zero bytes, the state entered, zero." With a count above 0
/// in state 3, or in state 4, see `burns`.
fn reports(entered: u8) -> impl FnOnce(&mut Rig) -> Said {
    move |rig| {
        rig.session.state = entered;
        Said(Outcome::Done, vec![rig.session.status, 0, 0, 0, entered, 0], 0)
    }
}

/// The step that P5's cases gain: "the first GETSTATUS in state 3 reports state 4 with
/// ten milliseconds a page in its three timeout bytes, low byte first, and moves
/// there; the next one reports 5 with timeout zero", and "that second GETSTATUS"
/// clears the count.
#[track_caller]
fn burns(rig: &Rig, timeout: [u8; 3]) -> Rig {
    let [low, middle, high] = timeout;
    let rig = expect(rig, &GETSTATUS, &[], |rig| {
        rig.session.state = 4;
        Said(Outcome::Done, vec![rig.session.status, low, middle, high, 4, 0], 0)
    });
    expect(&rig, &GETSTATUS, &[], |rig| {
        rig.session.state = 5;
        rig.session.busy = 0;
        Said(Outcome::Done, vec![rig.session.status, 0, 0, 0, 5, 0], 0)
    })
}

fn refuses(number: u8) -> impl FnOnce(&mut Rig) -> Said {
    move |_| Said(Outcome::Refused(number), vec![], 0)
}

fn ranged(code: u8, sub: u8, start: u16, end: u16) -> Vec<u8> {
    let ([s1, s0], [e1, e0]) = (start.to_be_bytes(), end.to_be_bytes());
    vec![code, sub, s1, s0, e1, e0]
}

/// A program transfer by the paper's words, with filler and pad of `waste`.
fn transfer(memory: u8, start: u16, end: u16, bytes: &[u8], waste: u8) -> Vec<u8> {
    let mut payload = ranged(0x01, memory, start, end);
    payload.resize(32 + usize::from(start % 32), waste);
    payload.extend_from_slice(bytes);
    payload.extend_from_slice(b"sixteen bytes ..");
    payload
}

/// The codes of a program transfer: "00h flash or 01h EEPROM".
const FLASH: u8 = 0x00;
const EEPROM: u8 = 0x01;

/// The program command of that code; P4: "each over its own address kind".
fn program(code: u8, start: u16, end: u16) -> Command {
    if code == FLASH {
        Command::ProgramFlash { start: FlashAddress(start), end: FlashAddress(end) }
    } else {
        Command::ProgramEeprom { start: EepromAddress(start), end: EepromAddress(end) }
    }
}

/// A generator of our own, so that a failure comes again.
struct Xorshift(u64);

impl Xorshift {
    fn next(&mut self) -> u64 {
        self.0 ^= self.0 << 13;
        self.0 ^= self.0 >> 7;
        self.0 ^= self.0 << 17;
        self.0
    }

    fn below(&mut self, bound: usize) -> usize {
        ((self.next() >> 16) % bound as u64) as usize
    }

    fn byte(&mut self) -> u8 {
        (self.next() >> 24) as u8
    }

    fn word(&mut self) -> u16 {
        (self.next() >> 24) as u16
    }

    fn bytes(&mut self, length: usize) -> Vec<u8> {
        (0..length).map(|_| self.byte()).collect()
    }

    fn pick<T: Copy>(&mut self, from: &[T]) -> T {
        from[self.below(from.len())]
    }
}

/// Something of each kind of pending, all of it sound.
fn pendings() -> Vec<Pending> {
    vec![
        Pending::Nothing,
        Pending::Read { memory: Memory::Flash, start: 0x1000, end: 0x13FF },
        Pending::Read { memory: Memory::Eeprom, start: 0x0000, end: 0x03FF },
        Pending::Read { memory: Memory::Flash, start: 0x7FFF, end: 0x7FFF },
        Pending::Blank(0x1234),
        Pending::Blank(0x7FFF),
        Pending::Byte(0x00),
        Pending::Byte(0xFF),
        Pending::Start { kind: StartKind::Reset, address: 0x0000 },
        // No command leaves this one, but no refusal keeps it out: READINGS 5.
        Pending::Start { kind: StartKind::Reset, address: 0x1234 },
        Pending::Start { kind: StartKind::Jump, address: 0x7FFF },
    ]
}

// ---------------------------------------------------------- the bench cases

#[test]
fn case_1_padding() {
    assert_eq!(padding(0x00AF), 15);
}

#[test]
fn cases_2_to_4_one_byte_at_00af() {
    let payload = transfer(0, 0x00AF, 0x00AF, &[0x42], 0xEE);
    assert_eq!(payload.len(), 64);
    let rig = command(&Rig::new(), &payload, |rig| {
        rig.flash[0x00AF] = 0x42;
        taken(rig, Pending::Nothing, 1)
    });
    burns(&rig, [0x0A, 0x00, 0x00]);
    let mut longer = payload.clone();
    longer.push(0);
    command(&Rig::new(), &longer, stalls);
    command(&Rig::new(), &payload[..63], stalls);
    command(&Rig::new().ssb(LEVEL_1), &payload, sets(0x03));
}

#[test]
fn case_5_1025_bytes() {
    command(&Rig::new(), &transfer(0, 0x0000, 0x0400, &[0; 1_025], 0), sets(0x08));
    command(&Rig::new(), &transfer(0, 0x0000, 0x0400, &[0; 7], 0), sets(0x08));
}

#[test]
fn case_6_nine_pages() {
    let bytes = Xorshift(6).bytes(1_024);
    let payload = transfer(0, 0x007F, 0x047E, &bytes, 0x11);
    assert_eq!(payload.len(), 1_103);
    let rig = command(&Rig::filled(), &payload, |rig| {
        rig.flash[0x007F..=0x047E].copy_from_slice(&bytes);
        taken(rig, Pending::Nothing, 9)
    });
    // 90 milliseconds.
    burns(&rig, [0x5A, 0x00, 0x00]);
}

#[test]
fn case_7_the_last_byte_and_one_beyond() {
    let payload = transfer(0, 0x7FFF, 0x7FFF, &[0x42], 0xEE);
    assert_eq!(payload.len(), 80);
    let rig = command(&Rig::new(), &payload, |rig| {
        rig.flash[0x7FFF] = 0x42;
        taken(rig, Pending::Nothing, 1)
    });
    burns(&rig, [0x0A, 0x00, 0x00]);
    // The one that is not taken stores no page, and its status is there at once.
    let rig = command(&Rig::new(), &transfer(0, 0x8000, 0x8000, &[0x42], 0), sets(0x08));
    expect(&rig, &GETSTATUS, &[], reports(10));
}

#[test]
fn case_8_read_at_level_2() {
    command(&Rig::new().ssb(LEVEL_2), &ranged(0x03, 0x00, 0, 0xFF), sets(0x0B));
}

#[test]
fn case_9_blank_check_at_level_2() {
    for ssb in level_2_values() {
        let mut rig = Rig::new().ssb(ssb);
        rig.flash[0x1234] = 0x00;
        rig.flash[0x1235] = 0x00;
        let rig = command(&rig, &ranged(0x03, 0x01, 0x0000, 0x7FFF), |rig| finds(rig, 0x1234));
        let rig = expect(&rig, &GETSTATUS, &[], |rig| {
            rig.session.state = 5;
            Said(Outcome::Done, vec![0x05, 0, 0, 0, 5, 0], 0)
        });
        expect(&rig, &upload(2), &[], |rig| {
            idles(rig);
            Said(Outcome::Done, vec![0x12, 0x34], 0)
        });
    }
}

#[test]
fn case_10_ssb_fe_at_level_1() {
    command(&Rig::new().ssb(LEVEL_1), &[0x04, 0x01, 0x05, 0xFE], sets(0x03));
}

#[test]
fn case_11_full_erase_at_level_2() {
    let mut filled = Rig::filled();
    filled.config = Config { bytes: [1, 2, 3, 4, 5, 6, 7], hsb: 8 };
    for ssb in level_2_values() {
        let rig = command(&filled.clone().ssb(ssb), &[0x04, 0x00, 0xFF], |rig| {
            rig.flash.fill(0xFF);
            rig.config = Config { bytes: [0xFF, 0xFC, 3, 4, 5, 0xFF, 7], hsb: 8 };
            taken(rig, Pending::Nothing, 256)
        });
        assert_eq!(rig.config.level(), Level::Zero);
        // 2,560 milliseconds, 0A00h.
        burns(&rig, [0x00, 0x0A, 0x00]);
    }
}

#[test]
fn case_12_hsb() {
    command(&Rig::new(), &[0x04, 0x02, 0x00, 0x4F], |rig| {
        rig.config.hsb = 0x4B;
        taken(rig, Pending::Nothing, 0)
    });
}

// ----------------------------------------------------------------- refusals

/// Lends `step` one fault for each number in `faults`.
fn faulty(faults: &[u8]) -> (Rig, Vec<u8>, Vec<u8>) {
    let mut rig = Rig::filled();
    let mut setup = GETSTATE.to_vec();
    let mut data = vec![];
    for fault in faults {
        match fault {
            1 => setup.truncate(7),
            2 => drop(rig.flash.pop()),
            3 => rig.eeprom.push(0xFF),
            4 => data.push(0),
            5 => drop(rig.reply.pop()),
            6 => rig.session.status = 0x10,
            _ => rig.session.state = 0,
        }
    }
    (rig, setup, data)
}

#[test]
fn refusals_1_to_7_come_in_their_order() {
    for first in 1..=7 {
        for mask in 0..1_u8 << (7 - first) {
            let mut faults = vec![first];
            faults.extend((first + 1..=7).filter(|n| mask >> (n - first - 1) & 1 == 1));
            let (rig, setup, data) = faulty(&faults);
            expect(&rig, &setup, &data, refuses(first));
        }
    }
    let (rig, setup, data) = faulty(&[]);
    expect(&rig, &setup, &data, |_| Said(Outcome::Done, vec![2], 0));
}

#[test]
fn refusals_1_to_3_and_5_by_length() {
    for length in (0..=20).filter(|&n| n != 8) {
        let mut setup = GETSTATE.to_vec();
        setup.resize(length, 0);
        expect(&Rig::new(), &setup, &[], refuses(1));
    }
    for length in [0, 1, 32_767, 32_769, 65_536] {
        let mut rig = Rig::new();
        rig.flash.resize(length, 0xFF);
        expect(&rig, &GETSTATE, &[], refuses(2));
    }
    for length in [0, 1, 1_023, 1_025, 32_768] {
        let mut rig = Rig::new();
        rig.eeprom.resize(length, 0xFF);
        expect(&rig, &GETSTATE, &[], refuses(3));
    }
    for length in [0, 1, 6, 1_023] {
        let mut rig = Rig::new();
        rig.reply.resize(length, 0xA5);
        expect(&rig, &GETSTATE, &[], refuses(5));
    }
    let mut rig = Rig::new();
    rig.reply.resize(3_000, 0xA5);
    expect(&rig, &GETSTATE, &[], |_| Said(Outcome::Done, vec![2], 0));
}

#[test]
fn refusal_4_looks_at_bit_7_alone() {
    for kind in 0..=255_u8 {
        let known = [0x21, 0xA1].contains(&kind);
        let setup = [kind, 9, 0, 0, 0, 0, 2, 0];
        if kind < 0x80 {
            expect(&Rig::new(), &setup, &[], refuses(4));
            expect(&Rig::new(), &setup, &[1], refuses(4));
            expect(&Rig::new(), &setup, &[1, 2, 3], refuses(4));
            expect(&Rig::new(), &setup, &[1, 2], stalls);
        } else {
            expect(&Rig::new(), &setup, &[1], refuses(4));
            expect(&Rig::new(), &setup, &[1, 2], refuses(4));
            expect(&Rig::new(), &setup, &[], stalls);
        }
        if !known {
            for request in 0..=6 {
                expect(&Rig::new(), &[kind, request, 0, 0, 0, 0, 0, 0], &[], stalls);
            }
        }
    }
}

#[test]
fn refusal_6_by_state_and_status() {
    for state in 0..=255 {
        let rig = Rig::new().at(state, 0, Pending::Nothing);
        match state {
            0 => drop(expect(&rig, &GETSTATE, &[], refuses(7))),
            2 | 3 | 4 | 5 | 6 | 9 | 10 => {
                expect(&rig, &GETSTATE, &[], |_| Said(Outcome::Done, vec![state], 0));
            }
            _ => drop(expect(&rig, &GETSTATE, &[], refuses(6))),
        }
    }
    for status in 0..=255 {
        for state in STATES {
            let rig = Rig::new().at(state, status, Pending::Nothing);
            if status <= 0x0F {
                expect(&rig, &GETSTATE, &[], |_| Said(Outcome::Done, vec![state], 0));
            } else {
                expect(&rig, &GETSTATE, &[], refuses(6));
            }
        }
        let number = if status <= 0x0F { 7 } else { 6 };
        expect(&Rig::new().at(0, status, Pending::Nothing), &GETSTATE, &[], refuses(number));
    }
}

fn flash_read(start: u16, end: u16) -> Pending {
    Pending::Read { memory: Memory::Flash, start, end }
}

fn eeprom_read(start: u16, end: u16) -> Pending {
    Pending::Read { memory: Memory::Eeprom, start, end }
}

#[test]
fn refusal_6_has_no_cause_at_the_boundaries() {
    let sound = [
        flash_read(0, 0),
        flash_read(0, 0x03FF),
        flash_read(0x7C00, 0x7FFF),
        flash_read(0x7FFF, 0x7FFF),
        eeprom_read(0, 0x03FF),
        eeprom_read(0x03FF, 0x03FF),
        Pending::Blank(0),
        Pending::Blank(0x7FFF),
        Pending::Start { kind: StartKind::Reset, address: 0x7FFF },
        Pending::Start { kind: StartKind::Jump, address: 0x7FFF },
    ];
    for state in STATES {
        for pending in sound {
            let rig = Rig::new().at(state, 0, pending);
            expect(&rig, &GETSTATE, &[], |_| Said(Outcome::Done, vec![state], 0));
        }
    }
}

#[test]
fn refusal_6_by_what_is_pending() {
    let unsound = [
        flash_read(1, 0),
        flash_read(0, 0x0400),
        flash_read(0x7C00, 0x8000),
        flash_read(0x8000, 0x8000),
        flash_read(0x7FFF, 0x8000),
        flash_read(0xFFFF, 0),
        flash_read(0, 0xFFFF),
        flash_read(0xFFFF, 0xFFFF),
        eeprom_read(1, 0),
        eeprom_read(0, 0x0400),
        eeprom_read(0x0400, 0x0400),
        eeprom_read(0x0400, 0x03FF),
        eeprom_read(0xFFFF, 0xFFFF),
        Pending::Blank(0x8000),
        Pending::Blank(0xFFFF),
        Pending::Start { kind: StartKind::Reset, address: 0x8000 },
        Pending::Start { kind: StartKind::Jump, address: 0x8000 },
        Pending::Start { kind: StartKind::Jump, address: 0xFFFF },
    ];
    for state in [0, 2, 3, 4, 5, 6, 9, 10] {
        for pending in unsound {
            let rig = Rig::new().at(state, 0, pending);
            for setup in [GETSTATE, GETSTATUS, CLRSTATUS, ABORT, DETACH, upload(1)] {
                expect(&rig, &setup, &[], refuses(6));
            }
        }
    }
}

#[test]
fn refusal_7_for_every_request() {
    for pending in pendings() {
        let rig = Rig::filled().at(0, 3, pending);
        for setup in [GETSTATE, GETSTATUS, CLRSTATUS, ABORT, DETACH, upload(9), dnload(0)] {
            expect(&rig, &setup, &[], refuses(7));
        }
        command(&rig, &[0x04, 0x00, 0xFF], refuses(7));
    }
}

// ----------------------------------------------------- requests, row by row

#[test]
fn power_up_is_state_2_and_nothing_pending() {
    for pending in pendings() {
        for state in 0..=255 {
            let mut session = record(state, 0x77, pending);
            power_up(&mut session);
            assert_eq!(session, record(2, 0, Pending::Nothing));
        }
    }
}

/// It "keeps the rest": the host then reads the SSB that was stored before.
#[test]
fn power_up_keeps_every_ssb() {
    for ssb in 0..=255 {
        let mut rig = Rig::new().at(10, 0x0F, Pending::Nothing).ssb(ssb);
        power_up(&mut rig.session);
        rig.send(&dnload(3), &[0x05, 0x01, 0x05]);
        rig.send(&GETSTATUS, &[]);
        expect(&rig, &upload(1), &[], |rig| {
            idles(rig);
            Said(Outcome::Done, vec![ssb], 0)
        });
        assert_eq!(rig.config, Rig::new().ssb(ssb).config);
    }
}

#[test]
fn getstatus_rows() {
    for (state, entered) in [(2, 2), (3, 5), (4, 5), (5, 5), (6, 2), (9, 9), (10, 10)] {
        for pending in pendings() {
            for status in 0..=0x0F {
                let rig = Rig::new().at(state, status, pending);
                expect(&rig, &GETSTATUS, &[], |rig| {
                    rig.session.state = entered;
                    Said(Outcome::Done, vec![status, 0, 0, 0, entered, 0], 0)
                });
            }
        }
    }
}

#[test]
fn getstate_rows() {
    for state in STATES {
        for pending in pendings() {
            let rig = Rig::new().at(state, 5, pending);
            expect(&rig, &GETSTATE, &[], |_| Said(Outcome::Done, vec![state], 0));
        }
    }
}

#[test]
fn clrstatus_and_abort_and_detach_rows() {
    for state in STATES {
        for pending in pendings() {
            let rig = Rig::new().at(state, 3, pending);
            if state == 10 {
                expect(&rig, &CLRSTATUS, &[], idles);
                expect(&rig, &ABORT, &[], stalls);
            } else {
                expect(&rig, &CLRSTATUS, &[], stalls);
                expect(&rig, &ABORT, &[], aborts);
            }
            expect(&rig, &DETACH, &[], stalls);
            expect(&rig, &[0x21, 0, 0x10, 0, 0, 0, 0, 0], &[], stalls);
        }
    }
}

#[test]
fn a_stall_in_state_10_keeps_the_status() {
    for status in 0..=0x0F {
        for pending in pendings() {
            let rig = Rig::new().at(10, status, pending);
            expect(&rig, &DETACH, &[], |rig| {
                rig.session.pending = Pending::Nothing;
                Said(Outcome::Stall, vec![], 0)
            });
            let rig = Rig::new().at(9, status, pending);
            expect(&rig, &DETACH, &[], |rig| {
                rig.session = record(10, 0x0F, Pending::Nothing);
                Said(Outcome::Stall, vec![], 0)
            });
        }
    }
}

/// The seven requests, each with one field off.
#[test]
fn every_other_setup_stalls() {
    for request in 0..=255_u8 {
        let with_21 = [0, 1, 4, 6].contains(&request);
        let with_a1 = [2, 3, 5].contains(&request);
        for length in [0, 1, 6] {
            if !with_21 {
                let setup = [0x21, request, 0, 0, 0, 0, length, 0];
                expect(&Rig::new(), &setup, &vec![0; length.into()], stalls);
            }
            if !with_a1 {
                expect(&Rig::new(), &[0xA1, request, 0, 0, 0, 0, length, 0], &[], stalls);
            }
        }
    }
    let rig = Rig::new().at(5, 0, Pending::Byte(1));
    for right in [GETSTATUS, GETSTATE, ABORT] {
        for place in 2..=7 {
            for bit in 0..8 {
                let mut setup = right;
                setup[place] ^= 1 << bit;
                let data = if setup[0] == 0x21 {
                    vec![0; u16::from_le_bytes([setup[6], setup[7]]).into()]
                } else {
                    vec![]
                };
                expect(&rig, &setup, &data, stalls);
            }
        }
    }
}

#[test]
fn wvalue_is_not_looked_at_in_dnload_and_upload_but_windex_is() {
    let rig = Rig::new().at(5, 0, Pending::Byte(0x77));
    for value in [0x0001, 0x0100, 0xFFFF_u16] {
        let [low, high] = value.to_le_bytes();
        expect(&rig, &[0xA1, 2, low, high, 0, 0, 1, 0], &[], |rig| {
            idles(rig);
            Said(Outcome::Done, vec![0x77], 0)
        });
        expect(&rig, &[0x21, 1, low, high, 0, 0, 3, 0], &[0x05, 0x00, 0x00], |rig| {
            taken(rig, Pending::Byte(0x12), 0)
        });
        expect(&rig, &[0xA1, 2, 0, 0, low, high, 1, 0], &[], stalls);
        expect(&rig, &[0x21, 1, 0, 0, low, high, 3, 0], &[0x05, 0x00, 0x00], stalls);
        let rig = Rig::new().at(10, 3, Pending::Nothing);
        expect(&rig, &[0x21, 4, low, high, 0, 0, 0, 0], &[], stalls);
        expect(&rig, &[0x21, 4, 0, 0, low, high, 0, 0], &[], stalls);
    }
}

#[test]
fn dnload_of_nothing_rows() {
    for state in STATES {
        for pending in pendings() {
            let rig = Rig::new().at(state, 4, pending);
            match (state, pending) {
                (3 | 5, Pending::Start { kind, address }) => {
                    expect(&rig, &dnload(0), &[], |rig| {
                        rig.session = record(0, 4, Pending::Nothing);
                        Said(Outcome::Start { kind, address }, vec![], 0)
                    });
                }
                (5, _) => {
                    expect(&rig, &dnload(0), &[], |rig| {
                        rig.session = record(6, 4, Pending::Nothing);
                        Said(Outcome::Done, vec![], 0)
                    });
                }
                _ => drop(expect(&rig, &dnload(0), &[], stalls)),
            }
        }
    }
}

#[test]
fn dnload_of_a_command_rows() {
    for state in STATES {
        for pending in pendings() {
            let rig = Rig::new().at(state, 4, pending);
            if state == 2 || state == 5 {
                command(&rig, &[0x05, 0x01, 0x02], |rig| taken(rig, Pending::Byte(0xFE), 0));
                command(&rig, &[0x04, 0x00, 0x20], |rig| taken(rig, Pending::Nothing, 64));
                command(&rig, &[0x04, 0x01, 0x05, 0x00], sets(0x03));
                command(&rig, &[0x77], stalls);
            } else {
                command(&rig, &[0x05, 0x01, 0x02], stalls);
                command(&rig, &[0x04, 0x01, 0x05, 0x00], stalls);
            }
        }
    }
}

#[test]
fn dnload_lengths_1103_and_1104() {
    let bytes = [0x33; 1_024];
    let longest = transfer(0, 0x001F, 0x041E, &bytes, 0);
    assert_eq!(longest.len(), 1_103);
    command(&Rig::new(), &longest, |rig| {
        rig.flash[0x001F..=0x041E].fill(0x33);
        taken(rig, Pending::Nothing, 9)
    });
    let mut beyond = longest.clone();
    beyond.push(0);
    command(&Rig::new(), &beyond, stalls);
    // Neither the level nor the address is looked at past 1,103 bytes.
    command(&Rig::new().ssb(LEVEL_1), &beyond, stalls);
    command(&Rig::new().ssb(LEVEL_1), &longest, sets(0x03));
    let mut wrong = transfer(0, 0x0001, 0x0000, &bytes, 0);
    wrong.resize(1_103, 0);
    command(&Rig::new(), &wrong, sets(0x08));
    wrong.resize(1_104, 0);
    command(&Rig::new(), &wrong, stalls);
    wrong.resize(65_535, 0);
    command(&Rig::new(), &wrong, stalls);
}

// ------------------------------------------------------------------ uploads

#[test]
fn upload_rows() {
    let filled = Rig::filled();
    for state in STATES {
        for pending in pendings() {
            for ssb in 0..=255 {
                let rig = filled.clone().at(state, 5, pending).ssb(ssb);
                expect(&rig, &upload(0), &[], stalls);
                let whole = match pending {
                    Pending::Read { .. } if level_of(ssb) == Level::Two => None,
                    Pending::Read { memory: Memory::Flash, start, end } => {
                        Some(rig.flash[start.into()..=end.into()].to_vec())
                    }
                    Pending::Read { memory: Memory::Eeprom, start, end } => {
                        Some(rig.eeprom[start.into()..=end.into()].to_vec())
                    }
                    Pending::Blank(address) => Some(address.to_be_bytes().to_vec()),
                    Pending::Byte(value) => Some(vec![value]),
                    Pending::Nothing | Pending::Start { .. } => None,
                };
                for length in [1_024, 1_025, 0xFFFF] {
                    match &whole {
                        Some(whole) if state == 5 || state == 9 => {
                            expect(&rig, &upload(length), &[], |rig| {
                                idles(rig);
                                Said(Outcome::Done, whole.clone(), 0)
                            });
                        }
                        _ => drop(expect(&rig, &upload(length), &[], stalls)),
                    }
                }
            }
        }
    }
}

#[test]
fn a_memory_read_in_parts() {
    let read = |start, end| Pending::Read { memory: Memory::Flash, start, end };
    let rig = command(&Rig::filled(), &ranged(0x03, 0x00, 0x7F00, 0x7FFF), |rig| {
        taken(rig, read(0x7F00, 0x7FFF), 0)
    });
    expect(&rig, &upload(1), &[], stalls);
    let rig = expect(&rig, &GETSTATUS, &[], |rig| {
        rig.session.state = 5;
        Said(Outcome::Done, vec![0, 0, 0, 0, 5, 0], 0)
    });
    let rig = expect(&rig, &upload(1), &[], |rig| {
        rig.session = record(9, 0, read(0x7F01, 0x7FFF));
        Said(Outcome::Done, vec![rig.flash[0x7F00]], 0)
    });
    let rig = expect(&rig, &upload(254), &[], |rig| {
        rig.session = record(9, 0, read(0x7FFF, 0x7FFF));
        Said(Outcome::Done, rig.flash[0x7F01..=0x7FFE].to_vec(), 0)
    });
    let rig = expect(&rig, &GETSTATUS, &[], |_| Said(Outcome::Done, vec![0, 0, 0, 0, 9, 0], 0));
    let rig = expect(&rig, &upload(2), &[], |rig| {
        idles(rig);
        Said(Outcome::Done, vec![rig.flash[0x7FFF]], 0)
    });
    expect(&rig, &upload(2), &[], stalls);
}

#[test]
fn an_eeprom_read_in_parts_of_every_size() {
    for part in [1, 2, 3, 31, 32, 64, 511, 512, 1_000, 1_023, 1_024] {
        let pending = Pending::Read { memory: Memory::Eeprom, start: 0, end: 0x03FF };
        let mut rig = Rig::filled().at(5, 0, pending);
        let mut all = vec![];
        while rig.session.state != 2 {
            let answer = rig.send(&upload(part), &[]);
            assert_eq!(answer.outcome, Outcome::Done);
            all.extend_from_slice(rig.sent(&answer));
            assert_eq!(rig.session.state, if all.len() < 1_024 { 9 } else { 2 });
        }
        assert_eq!(all, rig.eeprom);
    }
}

#[test]
fn a_blank_report_in_two_parts() {
    for state in [5, 9] {
        let rig = Rig::new().at(state, 5, Pending::Blank(0x1234)).ssb(LEVEL_2);
        let rig = expect(&rig, &upload(1), &[], |rig| {
            rig.session = record(9, 0, Pending::Byte(0x34));
            Said(Outcome::Done, vec![0x12], 0)
        });
        let rig = expect(&rig, &upload(1), &[], |rig| {
            idles(rig);
            Said(Outcome::Done, vec![0x34], 0)
        });
        expect(&rig, &upload(1), &[], stalls);
    }
}

#[test]
fn the_pending_byte_was_fixed_when_the_command_was_accepted() {
    let mut rig =
        command(&Rig::new(), &[0x05, 0x01, 0x06], |rig| taken(rig, Pending::Byte(0xFF), 0));
    rig.config.bytes[6] = 0x00;
    rig.session.state = 5;
    expect(&rig, &upload(8), &[], |rig| {
        idles(rig);
        Said(Outcome::Done, vec![0xFF], 0)
    });
}

/// "Clearing a refused write's status at a request other than CLRSTATUS."
#[test]
fn a_refused_write_keeps_its_status_until_clrstatus() {
    let mut rig = command(&Rig::new().ssb(LEVEL_1), &[0x04, 0x00, 0x00], sets(0x03));
    for setup in [ABORT, DETACH, upload(1), dnload(0)] {
        rig = expect(&rig, &setup, &[], |_| Said(Outcome::Stall, vec![], 0));
        rig = expect(&rig, &GETSTATUS, &[], |_| Said(Outcome::Done, vec![0x03, 0, 0, 0, 10, 0], 0));
    }
    rig = command(&rig, &[0x05, 0x00, 0x00], |_| Said(Outcome::Stall, vec![], 0));
    expect(&rig, &CLRSTATUS, &[], idles);
}

// ------------------------------------------------------- busy is busy (P5)

/// Busy counts that a lent record may hold, with the bytes of "ten milliseconds a page
/// in its three timeout bytes, low byte first": 0, 10, 90, 1,280 and 2,560.
const COUNTS: [(u16, [u8; 3]); 5] = [
    (0, [0x00, 0x00, 0x00]),
    (1, [0x0A, 0x00, 0x00]),
    (9, [0x5A, 0x00, 0x00]),
    (128, [0x00, 0x05, 0x00]),
    (256, [0x00, 0x0A, 0x00]),
];

/// 6 "refuses a busy count above 256".
const REFUSED_COUNTS: [u16; 2] = [257, 65_535];

/// A request, the SSB of the board that it goes to, the records for which the papers
/// let it work, and what it does then. With every other record it stalls.
struct Row {
    setup: [u8; 8],
    data: Vec<u8>,
    ssb: u8,
    works: fn(&Session) -> bool,
    does: Box<dyn Fn(&mut Rig) -> Said>,
}

fn row(
    setup: [u8; 8],
    works: fn(&Session) -> bool,
    does: impl Fn(&mut Rig) -> Said + 'static,
) -> Row {
    Row { setup, data: vec![], ssb: LEVEL_0, works, does: Box::new(does) }
}

/// A DNLOAD of 1 to 1,103 bytes: "a command in 2 or 5, else stall".
fn row_of(ssb: u8, payload: &[u8], does: impl Fn(&mut Rig) -> Said + 'static) -> Row {
    let works = |record: &Session| matches!(record.state, 2 | 5);
    Row { data: payload.to_vec(), ssb, ..row(dnload(payload.len()), works, does) }
}

/// A board with one byte that isn't FFh, at 1234h.
fn spotted() -> Rig {
    let mut rig = Rig::new();
    rig.flash[0x1234] = 0x00;
    rig
}

fn always(_: &Session) -> bool {
    true
}

fn never(_: &Session) -> bool {
    false
}

/// "UPLOAD in 5 or 9, ... something pending that can be sent"; "A pending start can't be
/// sent".
fn sendable(record: &Session) -> bool {
    let nothing = matches!(record.pending, Pending::Nothing | Pending::Start { .. });
    matches!(record.state, 5 | 9) && !nothing
}

/// The same at level 2: "nor a memory read".
fn sendable_at_level_2(record: &Session) -> bool {
    sendable(record) && !matches!(record.pending, Pending::Read { .. })
}

/// "wLength 0: in 3 or 5 with a start pending ...; else in 5 ...; else stall."
fn ends(record: &Session) -> bool {
    let start = matches!(record.pending, Pending::Start { .. });
    record.state == 5 || record.state == 3 && start
}

/// GETSTATUS in every state: "State 3 becomes 5, 6 becomes 2, others stay; so do status
/// and what is pending", with P5's state 4 on the way where the count is above 0. Of
/// all of them "that second GETSTATUS" alone clears the count.
fn asked(rig: &mut Rig) -> Said {
    let (count, state) = (rig.session.busy, rig.session.state);
    let (_, burning) = COUNTS.into_iter().find(|&(listed, _)| listed == count).unwrap();
    let (entered, [low, middle, high], after) = match (state, count) {
        (3, 0) => (5, [0; 3], 0),
        (3, _) => (4, burning, count),
        (4, _) => (5, [0; 3], 0),
        (6, _) => (2, [0; 3], count),
        _ => (state, [0; 3], count),
    };
    (rig.session.state, rig.session.busy) = (entered, after);
    Said(Outcome::Done, vec![rig.session.status, low, middle, high, entered, 0], 0)
}

/// DNLOAD of no byte where it works: "start with its kind and address, state 0, nothing
/// pending; else in 5 state 6, nothing pending (both keep the status)", and the count.
fn ended(rig: &mut Rig) -> Said {
    let (state, outcome) = match rig.session.pending {
        Pending::Start { kind, address } => (0, Outcome::Start { kind, address }),
        _ => (6, Outcome::Done),
    };
    rig.session = Session { state, pending: Pending::Nothing, ..rig.session };
    Said(outcome, vec![], 0)
}

/// UPLOAD where it works: "the smaller of wLength and the rest. Status 00h. If more
/// remains, state 9 and the rest pending (after the first byte of a blank report: its
/// low byte, as one byte); else state 2 and nothing." The count is kept.
fn sends(length: usize) -> impl Fn(&mut Rig) -> Said {
    move |rig| {
        let whole = match rig.session.pending {
            Pending::Read { memory: Memory::Flash, start, end } => {
                rig.flash[start.into()..=end.into()].to_vec()
            }
            Pending::Read { memory: Memory::Eeprom, start, end } => {
                rig.eeprom[start.into()..=end.into()].to_vec()
            }
            Pending::Blank(address) => address.to_be_bytes().to_vec(),
            Pending::Byte(value) => vec![value],
            Pending::Nothing | Pending::Start { .. } => panic!("nothing to send"),
        };
        let sent = whole[..length.min(whole.len())].to_vec();
        let (state, pending) = match rig.session.pending {
            _ if sent.len() == whole.len() => (2, Pending::Nothing),
            Pending::Read { memory, start, end } => {
                (9, Pending::Read { memory, start: start + sent.len() as u16, end })
            }
            _ => (9, Pending::Byte(whole[1])),
        };
        rig.session = Session { state, status: 0x00, pending, ..rig.session };
        Said(Outcome::Done, sent, 0)
    }
}

/// Every request but those that are commands.
fn rows_of_requests() -> Vec<Row> {
    let mut rows = vec![
        row(GETSTATUS, always, asked),
        row(GETSTATE, always, |rig| Said(Outcome::Done, vec![rig.session.state], 0)),
        row(CLRSTATUS, |record| record.state == 10, idles),
        row(ABORT, |record| [2, 3, 4, 5, 6, 9].contains(&record.state), aborts),
        row(DETACH, never, stalls),
        row(dnload(0), ends, ended),
        Row { data: vec![0; 1_104], ..row(dnload(1_104), never, stalls) },
        row(upload(0), never, stalls),
    ];
    for length in [1, 2, 64, 1_024, 0xFFFF] {
        rows.push(row(upload(length), sendable, sends(length.into())));
        let at_level_2 = row(upload(length), sendable_at_level_2, sends(length.into()));
        rows.push(Row { ssb: LEVEL_2, ..at_level_2 });
    }
    // "Anything else stalls."
    for setup in [
        [0xA1, 3, 0, 0, 0, 0, 5, 0],
        [0xA1, 3, 1, 0, 0, 0, 6, 0],
        [0xA1, 5, 0, 0, 1, 0, 1, 0],
        [0xA1, 6, 0, 0, 0, 0, 0, 0],
        [0xA1, 2, 0, 0, 1, 0, 1, 0],
        [0x21, 3, 0, 0, 0, 0, 0, 0],
        [0x21, 4, 1, 0, 0, 0, 0, 0],
        [0x21, 6, 0, 0, 1, 0, 0, 0],
        [0x21, 7, 0, 0, 0, 0, 0, 0],
        [0x00, 0, 0, 0, 0, 0, 0, 0],
    ] {
        rows.push(row(setup, never, stalls));
    }
    rows
}

/// Every command, accepted, answered with a status, and malformed.
fn rows_of_commands() -> Vec<Row> {
    let nine = transfer(FLASH, 0x007F, 0x047E, &[0x42; 1_024], 0);
    let one = transfer(FLASH, 0x00AF, 0x00AF, &[0x42], 0);
    let to_eeprom = transfer(EEPROM, 0x03FF, 0x03FF, &[0x42], 0);
    // What is stored, what is pending, how many pages.
    let nothing = Pending::Nothing;
    let accepted: [(&[u8], Store, Pending, usize); 17] = [
        (&one, |rig| rig.flash[0x00AF] = 0x42, nothing, 1),
        (&nine, |rig| rig.flash[0x007F..=0x047E].fill(0x42), nothing, 9),
        (&to_eeprom, |rig| rig.eeprom[0x03FF] = 0x42, nothing, 0),
        (&[0x04, 0x00, 0x00], |rig| rig.flash[..0x2000].fill(0xFF), nothing, 64),
        (&[0x04, 0x00, 0x20], |rig| rig.flash[0x2000..0x4000].fill(0xFF), nothing, 64),
        (&[0x04, 0x00, 0x40], |rig| rig.flash[0x4000..].fill(0xFF), nothing, 128),
        (&[0x04, 0x00, 0xFF], |rig| rig.flash.fill(0xFF), nothing, 256),
        (&[0x04, 0x01, 0x00, 0x5A], |rig| rig.config.bytes[0] = 0x5A, nothing, 0),
        (&[0x04, 0x01, 0x05, 0xFE], |rig| rig.config.bytes[5] = 0xFE, nothing, 0),
        (&[0x04, 0x02, 0x00, 0x4F], |rig| rig.config.hsb = 0x4B, nothing, 0),
        (&[0x03, 0x00, 0x12, 0x00, 0x12, 0xFF], |_| (), flash_read(0x1200, 0x12FF), 0),
        (&[0x03, 0x02, 0x00, 0x00, 0x03, 0xFF], |_| (), eeprom_read(0x0000, 0x03FF), 0),
        (&[0x03, 0x01, 0x12, 0x35, 0x7F, 0xFF], |_| (), nothing, 0),
        (
            &[0x04, 0x03, 0x01, 0x12, 0x34],
            |_| (),
            Pending::Start { kind: StartKind::Jump, address: 0x1234 },
            0,
        ),
        (&[0x05, 0x00, 0x00], |_| (), Pending::Byte(0x12), 0),
        (&[0x05, 0x01, 0x30], |_| (), Pending::Byte(0x58), 0),
        (&[0x05, 0x02, 0x00], |_| (), Pending::Byte(0xBB), 0),
    ];
    let mut rows: Vec<Row> = accepted
        .into_iter()
        .map(|(payload, store, pending, pages)| {
            row_of(LEVEL_0, payload, move |rig| {
                store(rig);
                taken(rig, pending, pages)
            })
        })
        .collect();
    // "a blank check that gives 05h too".
    for ssb in [LEVEL_0, LEVEL_1, LEVEL_2] {
        rows.push(row_of(ssb, &ranged(0x03, 0x01, 0, 0x7FFF), |rig| finds(rig, 0x1234)));
    }
    // At level 2 the erase of the full chip is all that stores a page.
    rows.push(row_of(LEVEL_2, &[0x04, 0x00, 0xFF], |rig| {
        rig.flash.fill(0xFF);
        rig.config.bytes[5] = 0xFF;
        taken(rig, Pending::Nothing, 256)
    }));
    for (ssb, payload, status) in [
        (LEVEL_1, &one[..], 0x03),
        (LEVEL_1, &[0x04, 0x00, 0x40], 0x03),
        (LEVEL_2, &[0x04, 0x02, 0x00, 0x00], 0x03),
        (LEVEL_0, &[0x04, 0x01, 0x05, 0x00], 0x03),
        (LEVEL_0, &[0x04, 0x03, 0x01, 0x80, 0x00], 0x08),
        (LEVEL_0, &[0x01, 0x00, 0x00, 0x00, 0x04, 0x00], 0x08),
        (LEVEL_0, &[0x03, 0x01, 0x00, 0x01, 0x00, 0x00], 0x08),
        (LEVEL_2, &[0x03, 0x00, 0x00, 0x00, 0x00, 0x00], 0x0B),
        (LEVEL_2, &[0x05, 0x02, 0x00], 0x0B),
    ] {
        rows.push(row_of(ssb, payload, move |rig| sets(status)(rig)));
    }
    for payload in [&one[..63], &[0x01, 0x00], &[0x04, 0x00, 0x10], &[0x77]] {
        rows.push(row_of(LEVEL_0, payload, stalls));
    }
    rows
}

fn all_rows() -> Vec<Row> {
    [rows_of_requests(), rows_of_commands()].into_iter().flatten().collect()
}

/// Each request with each state, each kind of pending and each count: the answer, the
/// state, and whether the count is set, kept or cleared. "The count is cleared by that
/// second GETSTATUS and by every stall, ABORT and power-up", and what is not named
/// keeps it.
#[test]
fn every_request_with_every_lent_count() {
    for row in all_rows() {
        let board = spotted().ssb(row.ssb);
        for state in STATES {
            for pending in pendings() {
                for (count, _) in COUNTS {
                    for status in [0x00, 0x05, 0x0F] {
                        let rig = board.clone().at(state, status, pending).busy(count);
                        if (row.works)(&rig.session) {
                            expect(&rig, &row.setup, &row.data, |rig| (row.does)(rig));
                        } else {
                            expect(&rig, &row.setup, &row.data, stalls);
                        }
                    }
                }
            }
        }
    }
}

/// "6 now admits state 4 and refuses a busy count above 256", in state 0 too, where 7
/// is only for a record that 6 admits.
#[test]
fn every_request_with_a_count_above_256() {
    for row in all_rows() {
        let board = spotted().ssb(row.ssb);
        for state in [0, 2, 3, 4, 5, 6, 9, 10] {
            for pending in pendings() {
                for count in REFUSED_COUNTS {
                    let rig = board.clone().at(state, 0x00, pending).busy(count);
                    expect(&rig, &row.setup, &row.data, refuses(6));
                }
            }
        }
        for (count, _) in COUNTS {
            let rig = board.clone().at(0, 0x00, Pending::Nothing).busy(count);
            expect(&rig, &row.setup, &row.data, refuses(7));
        }
    }
}

/// The count in the order of the refusals: after 5, as one cause of 6, before 7.
#[test]
fn the_count_among_the_refusals() {
    for count in COUNTS.map(|(count, _)| count).into_iter().chain(REFUSED_COUNTS) {
        for state in 0..=255 {
            let rig = Rig::new().at(state, 0, Pending::Nothing).busy(count);
            match (state, count) {
                (2..=6 | 9 | 10, 0..=256) => {
                    expect(&rig, &GETSTATE, &[], |_| Said(Outcome::Done, vec![state], 0));
                }
                (0, 0..=256) => drop(expect(&rig, &GETSTATE, &[], refuses(7))),
                _ => drop(expect(&rig, &GETSTATE, &[], refuses(6))),
            }
        }
    }
    for count in REFUSED_COUNTS {
        for state in [0, 2, 3, 4, 10] {
            for first in 1..=5 {
                let (mut rig, setup, data) = faulty(&[first]);
                rig.session.state = state;
                expect(&rig.busy(count), &setup, &data, refuses(first));
            }
            let rig = Rig::new().at(state, 0x10, Pending::Blank(0x8000)).busy(count);
            expect(&rig, &GETSTATE, &[], refuses(6));
        }
    }
}

/// The six bytes of both, for each number of pages that a command may have.
#[test]
fn both_getstatus_byte_by_byte() {
    for (count, timeout) in [
        (1, [0x0A, 0x00, 0x00]),
        (2, [0x14, 0x00, 0x00]),
        (3, [0x1E, 0x00, 0x00]),
        (4, [0x28, 0x00, 0x00]),
        (5, [0x32, 0x00, 0x00]),
        (6, [0x3C, 0x00, 0x00]),
        (7, [0x46, 0x00, 0x00]),
        (8, [0x50, 0x00, 0x00]),
        (9, [0x5A, 0x00, 0x00]),
        (64, [0x80, 0x02, 0x00]),
        (128, [0x00, 0x05, 0x00]),
        (256, [0x00, 0x0A, 0x00]),
    ] {
        for pending in pendings() {
            for status in 0..=0x0F {
                let rig = burns(&Rig::new().at(3, status, pending).busy(count), timeout);
                assert_eq!(rig.session, record(5, status, pending));
                // A third one finds nothing to wait for.
                expect(&rig, &GETSTATUS, &[], reports(5));
            }
        }
    }
}

/// GETSTATUS with each count that the record has room for, in each admitted state.
#[test]
fn getstatus_with_each_count() {
    let mut rig = Rig::new();
    for count in 0..=65_535 {
        for state in [0, 2, 3, 4, 5, 6, 9, 10] {
            rig.session = Session { busy: count, ..record(state, 0x05, Pending::Byte(1)) };
            let before = rig.session;
            let answer = rig.send(&GETSTATUS, &[]);
            if count > 256 || state == 0 {
                let number = if count > 256 { 6 } else { 7 };
                assert_eq!(answer.outcome, Outcome::Refused(number));
                assert_eq!(rig.session, before);
                continue;
            }
            let (entered, wait, after) = match state {
                3 if count > 0 => (4, 10 * count, count),
                3 | 4 => (5, 0, 0),
                6 => (2, 0, count),
                _ => (state, 0, count),
            };
            assert_eq!(answer, Answer { outcome: Outcome::Done, length: 6, pages: 0 });
            let want = [0x05, (wait % 256) as u8, (wait / 256) as u8, 0, entered, 0];
            assert_eq!(rig.reply[..6], want, "state {state}, count {count}");
            assert_eq!(rig.session, Session { state: entered, busy: after, ..before });
        }
    }
}

/// "In state 4 GETSTATE, GETSTATUS and ABORT work and the rest stalls": every request
/// number with either type and with two more, and every field of the three.
#[test]
fn in_state_4_three_work_and_the_rest_stalls() {
    let start = Pending::Start { kind: StartKind::Reset, address: 0 };
    let lent = [(Pending::Byte(0x77), 9), (start, 256), (Pending::Nothing, 0)];
    let rigs = lent.map(|(pending, count)| Rig::new().at(4, 0x05, pending).busy(count));
    let works = [GETSTATE, GETSTATUS, ABORT];
    for rig in &rigs {
        for kind in [0x21, 0xA1, 0x00, 0xC0] {
            for request in 0..=255 {
                for length in [0, 1, 6] {
                    let setup = [kind, request, 0, 0, 0, 0, length, 0];
                    if !works.contains(&setup) {
                        let data = vec![0; if kind < 0x80 { length.into() } else { 0 }];
                        expect(rig, &setup, &data, stalls);
                    }
                }
            }
        }
        for right in works {
            for place in 2..=5 {
                let mut setup = right;
                setup[place] = 1;
                expect(rig, &setup, &[], stalls);
            }
        }
        expect(rig, &GETSTATE, &[], |_| Said(Outcome::Done, vec![4], 0));
        expect(rig, &GETSTATUS, &[], |rig| {
            rig.session = Session { state: 5, busy: 0, ..rig.session };
            Said(Outcome::Done, vec![0x05, 0, 0, 0, 5, 0], 0)
        });
        expect(rig, &ABORT, &[], |rig| {
            rig.session = record(2, 0x00, Pending::Nothing);
            Said(Outcome::Done, vec![], 0)
        });
    }
}

/// Power-up with any record: "state 2, status 00h, nothing pending", and the count is
/// cleared, one that 6 would refuse too.
#[test]
fn power_up_clears_every_count() {
    for count in 0..=65_535 {
        for (state, status, pending) in [
            (3, 0x00, Pending::Nothing),
            (4, 0x05, Pending::Blank(0x1234)),
            (0, 0x00, Pending::Nothing),
            (77, 0x77, Pending::Blank(0xFFFF)),
        ] {
            let mut session = Session { state, status, pending, busy: count };
            power_up(&mut session);
            assert_eq!(session, record(2, 0x00, Pending::Nothing));
        }
    }
    for state in 0..=255 {
        for (count, _) in COUNTS {
            let mut session = Session { busy: count, ..record(state, 0x0F, Pending::Byte(1)) };
            power_up(&mut session);
            assert_eq!(session, record(2, 0x00, Pending::Nothing));
        }
    }
}

/// "An accepted command ... sets it to its page count": each number of pages that
/// programming can have, and each erase, then both GETSTATUS and the next command.
#[test]
fn a_command_is_burnt_for_its_pages() {
    for (pages, timeout) in [
        (1, [0x0A, 0x00, 0x00]),
        (2, [0x14, 0x00, 0x00]),
        (3, [0x1E, 0x00, 0x00]),
        (8, [0x50, 0x00, 0x00]),
    ] {
        // So many whole pages from 4000h on.
        let end = 0x4000 + 128 * pages as u16 - 1;
        let bytes = vec![0x42; 128 * pages];
        let rig = command(&Rig::new(), &transfer(FLASH, 0x4000, end, &bytes, 0), |rig| {
            rig.flash[0x4000..=end.into()].fill(0x42);
            taken(rig, Pending::Nothing, pages)
        });
        let rig = burns(&rig, timeout);
        command(&rig, &[0x05, 0x00, 0x00], |rig| taken(rig, Pending::Byte(0x12), 0));
    }
    for (code, from, past, pages, timeout) in [
        (0x00, 0x0000, 0x2000, 64, [0x80, 0x02, 0x00]),
        (0x20, 0x2000, 0x4000, 64, [0x80, 0x02, 0x00]),
        (0x40, 0x4000, 0x8000, 128, [0x00, 0x05, 0x00]),
        (0xFF, 0x0000, 0x8000, 256, [0x00, 0x0A, 0x00]),
    ] {
        let rig = command(&Rig::filled(), &[0x04, 0x00, code], |rig| {
            rig.flash[from..past].fill(0xFF);
            taken(rig, Pending::Nothing, pages)
        });
        burns(&rig, timeout);
    }
    // "else 0": the EEPROM has no pages, and its status is there at once.
    let bytes = [0x42; 1_024];
    let rig = command(&Rig::new(), &transfer(EEPROM, 0x0000, 0x03FF, &bytes, 0), |rig| {
        rig.eeprom.fill(0x42);
        taken(rig, Pending::Nothing, 0)
    });
    expect(&rig, &GETSTATUS, &[], reports(5));
}

/// "Hosts ask again at once": GETSTATE moves nothing before the first GETSTATUS, between
/// the two and after them.
#[test]
fn getstate_on_the_way() {
    let state = |rig: &Rig, state: u8| {
        for _ in 0..3 {
            expect(rig, &GETSTATE, &[], |_| Said(Outcome::Done, vec![state], 0));
        }
    };
    let rig = command(&Rig::new(), &[0x04, 0x00, 0x40], |rig| taken(rig, Pending::Nothing, 128));
    state(&rig, 3);
    let rig = expect(&rig, &GETSTATUS, &[], |rig| {
        rig.session.state = 4;
        Said(Outcome::Done, vec![0x00, 0x00, 0x05, 0x00, 0x04, 0x00], 0)
    });
    assert_eq!(rig.session.busy, 128);
    state(&rig, 4);
    let rig = expect(&rig, &GETSTATUS, &[], |rig| {
        rig.session = record(5, 0x00, Pending::Nothing);
        Said(Outcome::Done, vec![0x00, 0x00, 0x00, 0x00, 0x05, 0x00], 0)
    });
    state(&rig, 5);
}

/// The ways out of states 3 and 4 besides GETSTATUS all clear the count.
#[test]
fn the_ways_out_of_a_busy_board() {
    let in_3 = command(&Rig::new(), &[0x04, 0x00, 0xFF], |rig| taken(rig, Pending::Nothing, 256));
    let in_4 = expect(&in_3, &GETSTATUS, &[], |rig| {
        rig.session.state = 4;
        Said(Outcome::Done, vec![0, 0x00, 0x0A, 0x00, 4, 0], 0)
    });
    for rig in [in_3, in_4] {
        let aborted = expect(&rig, &ABORT, &[], |rig| {
            rig.session = record(2, 0x00, Pending::Nothing);
            Said(Outcome::Done, vec![], 0)
        });
        expect(&aborted, &GETSTATUS, &[], reports(2));
        for setup in [CLRSTATUS, DETACH, upload(1), dnload(0)] {
            let stalled = expect(&rig, &setup, &[], |rig| {
                rig.session = record(10, 0x0F, Pending::Nothing);
                Said(Outcome::Stall, vec![], 0)
            });
            let cleared = expect(&stalled, &CLRSTATUS, &[], idles);
            assert_eq!(cleared.session, record(2, 0x00, Pending::Nothing));
        }
        command(&rig, &[0x05, 0x00, 0x00], stalls);
        let mut powered = rig.clone();
        power_up(&mut powered.session);
        assert_eq!(powered.session, record(2, 0x00, Pending::Nothing));
    }
}

/// What is not named keeps the count: lent in state 10, it outlasts CLRSTATUS, a
/// GETSTATUS of other states, a command answered with a status, uploads and a DNLOAD of
/// no byte, and says nothing, until something that is named.
#[test]
fn a_lent_count_is_kept_by_what_is_not_named() {
    let with = |state, status, pending| Session { busy: 9, ..record(state, status, pending) };
    let nothing = Pending::Nothing;
    let rig = Rig::new().at(10, 0x03, nothing).busy(9).ssb(LEVEL_2);
    let rig = expect(&rig, &GETSTATUS, &[], reports(10));
    let rig = expect(&rig, &CLRSTATUS, &[], idles);
    assert_eq!(rig.session, with(2, 0x00, nothing));
    let rig = expect(&rig, &GETSTATUS, &[], reports(2));
    let rig = command(&rig, &[0x05, 0x02, 0x00], sets(0x0B));
    assert_eq!(rig.session, with(10, 0x0B, nothing));
    let rig = expect(&rig, &CLRSTATUS, &[], idles);
    // An accepted command of no page sets it to 0, and its status is there at once.
    let rig = command(&rig, &[0x05, 0x00, 0x00], |rig| taken(rig, Pending::Byte(0x12), 0));
    let rig = expect(&rig, &GETSTATUS, &[], reports(5));
    // Lent again: an upload in two parts, then the end of a download, then a start.
    let rig = rig.at(5, 0x05, Pending::Blank(0x1234)).busy(9);
    let rig = expect(&rig, &upload(1), &[], sends(1));
    assert_eq!(rig.session, with(9, 0x00, Pending::Byte(0x34)));
    let rig = expect(&rig, &GETSTATUS, &[], reports(9));
    let rig = expect(&rig, &upload(1), &[], sends(1));
    assert_eq!(rig.session, with(2, 0x00, nothing));
    let rig = rig.at(5, 0x00, nothing).busy(9);
    let rig = expect(&rig, &dnload(0), &[], ended);
    assert_eq!(rig.session, with(6, 0x00, nothing));
    let rig = expect(&rig, &GETSTATUS, &[], reports(2));
    assert_eq!(rig.session, with(2, 0x00, nothing));
    for state in [3, 5] {
        let start = Pending::Start { kind: StartKind::Jump, address: 0x1234 };
        let rig = rig.clone().at(state, 0x00, start).busy(9);
        let rig = expect(&rig, &dnload(0), &[], ended);
        assert_eq!(rig.session, with(0, 0x00, nothing));
        expect(&rig, &GETSTATUS, &[], refuses(7));
    }
    // A stall where a stall moves little else.
    let rig = rig.at(10, 0x03, nothing).busy(9);
    let rig = expect(&rig, &ABORT, &[], stalls);
    assert_eq!(rig.session, record(10, 0x03, nothing));
}

/// What is pending goes through states 3, 4 and 5 with the status, and can be sent or
/// started only after that.
#[test]
fn what_is_pending_waits_in_state_4() {
    for pending in pendings() {
        let rig = Rig::filled().at(3, 0x05, pending).busy(9);
        let sending = expect(&rig, &GETSTATUS, &[], |rig| {
            rig.session.state = 4;
            Said(Outcome::Done, vec![0x05, 0x5A, 0, 0, 4, 0], 0)
        });
        expect(&sending, &upload(1_024), &[], stalls);
        expect(&sending, &dnload(0), &[], stalls);
        let rig = burns(&rig, [0x5A, 0x00, 0x00]);
        assert_eq!(rig.session, record(5, 0x05, pending));
        if sendable(&rig.session) {
            expect(&rig, &upload(1_024), &[], sends(1_024));
        } else {
            expect(&rig, &dnload(0), &[], ended);
        }
    }
}

/// A record that nobody lent: from power-up on, state 4 has a count, and no other state
/// than 3 and 4 has one, as every way out of them clears it.
#[test]
fn a_run_from_power_up_is_busy_in_states_3_and_4_alone() {
    let mut random = Xorshift(0x5555_AAAA_1234_8765);
    let mut rig = Rig::new();
    let (mut pages, mut burning) = (0, 0);
    for _ in 0..60_000 {
        let (mut setup, mut data) = any_request(&mut random);
        if random.below(3) > 0 && matches!(rig.session.state, 3 | 4) {
            (setup, data) = (GETSTATUS, vec![]);
        } else if rig.session.state == 10 {
            (setup, data) = (CLRSTATUS, vec![]);
        } else if random.below(20) == 0 {
            (setup, data) = (dnload(0), vec![]);
        }
        if rig.session.state == 0 || random.below(500) == 0 {
            power_up(&mut rig.session);
            rig.config = Rig::new().config;
        }
        let before = rig.session;
        let answer = rig.send(&setup, &data);
        if rig.session.state == 3 && before.state != 3 {
            pages = answer.pages as u16;
        }
        match rig.session.state {
            3 => assert_eq!(rig.session.busy, pages),
            4 => {
                assert!(pages > 0 && rig.session.busy == pages);
                burning += 1;
            }
            _ => assert_eq!(rig.session.busy, 0),
        }
    }
    // The run has to come by there often enough to say something.
    assert!(burning > 1_000, "{burning}");
}

// ------------------------------------------------------------------- levels

#[test]
fn ssb_values_and_levels() {
    for ssb in 0..=255 {
        assert_eq!(Rig::new().ssb(ssb).config.level(), level_of(ssb), "{ssb:02X}");
    }
}

/// What a taken payload stores.
type Store = fn(&mut Rig);

/// The first row of the table: each payload, what it stores, its pages.
#[test]
fn level_cells_of_memory_writes() {
    let filled = Rig::filled();
    let rows: [(Vec<u8>, Store, usize); 6] = [
        (transfer(0, 0x0100, 0x0100, &[0x42], 9), |rig| rig.flash[0x0100] = 0x42, 1),
        (transfer(1, 0x0100, 0x0100, &[0x42], 9), |rig| rig.eeprom[0x0100] = 0x42, 0),
        (vec![0x04, 0x00, 0x00], |rig| rig.flash[..0x2000].fill(0xFF), 64),
        (vec![0x04, 0x00, 0x20], |rig| rig.flash[0x2000..0x4000].fill(0xFF), 64),
        (vec![0x04, 0x00, 0x40], |rig| rig.flash[0x4000..].fill(0xFF), 128),
        (vec![0x04, 0x02, 0x00, 0x4F], |rig| rig.config.hsb = 0x4B, 0),
    ];
    for ssb in 0..=255 {
        let rig = filled.clone().ssb(ssb);
        for (payload, store, pages) in &rows {
            if level_of(ssb) == Level::Zero {
                command(&rig, payload, |rig| {
                    store(rig);
                    taken(rig, Pending::Nothing, *pages)
                });
            } else {
                command(&rig, payload, sets(0x03));
            }
        }
    }
}

/// The fourth row but for the reads: yes at every level, and SSB stays as stored.
#[test]
fn level_cells_of_the_free_commands() {
    for ssb in 0..=255 {
        let rig = Rig::new().ssb(ssb);
        for index in [0, 1, 2, 3, 4, 6_u8] {
            command(&rig, &[0x04, 0x01, index, 0x5A], |rig| {
                rig.config.bytes[usize::from(index)] = 0x5A;
                taken(rig, Pending::Nothing, 0)
            });
        }
        command(&rig, &ranged(0x03, 0x01, 0, 0x7FFF), |rig| taken(rig, Pending::Nothing, 0));
        command(&rig, &[0x04, 0x00, 0xFF], |rig| {
            rig.config.bytes[5] = 0xFF;
            taken(rig, Pending::Nothing, 256)
        });
        let reset = Pending::Start { kind: StartKind::Reset, address: 0 };
        command(&rig, &[0x04, 0x03, 0x00], |rig| taken(rig, reset, 0));
        let jump = Pending::Start { kind: StartKind::Jump, address: 0x1234 };
        command(&rig, &[0x04, 0x03, 0x01, 0x12, 0x34], |rig| taken(rig, jump, 0));
    }
}

#[test]
fn level_cells_of_reads() {
    for ssb in 0..=255 {
        let rig = Rig::new().ssb(ssb);
        let pend = |memory| Pending::Read { memory, start: 0, end: 0xFF };
        let reads = [
            (ranged(0x03, 0x00, 0, 0xFF), pend(Memory::Flash)),
            (ranged(0x03, 0x02, 0, 0xFF), pend(Memory::Eeprom)),
            (vec![0x05, 0x02, 0x00], Pending::Byte(0xBB)),
        ];
        for (payload, pending) in reads {
            if level_of(ssb) == Level::Two {
                command(&rig, &payload, sets(0x0B));
            } else {
                command(&rig, &payload, |rig| taken(rig, pending, 0));
            }
        }
        let bytes = [
            (0x00, 0xFF),
            (0x01, 0xFC),
            (0x02, 0xFE),
            (0x03, 0xFF),
            (0x04, 0xFF),
            (0x05, ssb),
            (0x06, 0xFF),
            (0x30, 0x58),
            (0x31, 0xD7),
            (0x60, 0xF7),
            (0x61, 0xDF),
        ];
        for (index, value) in bytes {
            command(&rig, &[0x05, 0x01, index], |rig| taken(rig, Pending::Byte(value), 0));
        }
        command(&rig, &[0x05, 0x00, 0x00], |rig| taken(rig, Pending::Byte(0x12), 0));
    }
}

#[test]
fn level_cells_of_writing_ssb() {
    for ssb in 0..=255 {
        for value in 0..=255 {
            let yes = match level_of(ssb) {
                Level::Zero => value == 0xFE || value == 0xFC,
                Level::One => value == 0xFC,
                Level::Two => false,
            };
            let mut session = Rig::new().session;
            let mut config = Rig::new().ssb(ssb).config;
            let (mut flash, mut eeprom, mut reply) = small_board();
            let payload = [0x04, 0x01, 0x05, value];
            let setup = dnload(4);
            step(&mut session, &mut config, &setup, &payload, &mut flash, &mut eeprom, &mut reply);
            let (state, status) = if yes { (3, 0x00) } else { (10, 0x03) };
            assert_eq!(session, record(state, status, Pending::Nothing));
            assert_eq!(config.bytes[5], if yes { value } else { ssb });
        }
    }
}

fn small_board() -> ([u8; 32_768], [u8; 1_024], [u8; 1_024]) {
    ([0xFF; 32_768], [0xFF; 1_024], [0; 1_024])
}

/// Case 11 ends at level 0, so the board is programmed and read from there.
#[test]
fn a_board_of_level_2_is_free_after_a_full_erase() {
    for ssb in level_2_values() {
        let mut rig = Rig::new().ssb(ssb);
        rig.send(&dnload(3), &[0x04, 0x00, 0xFF]);
        rig.send(&GETSTATUS, &[]);
        rig.send(&GETSTATUS, &[]);
        let mut rig = command(&rig, &transfer(0, 0x00AF, 0x00AF, &[0x42], 0), |rig| {
            rig.flash[0x00AF] = 0x42;
            taken(rig, Pending::Nothing, 1)
        });
        rig.send(&GETSTATUS, &[]);
        rig.send(&GETSTATUS, &[]);
        let mut rig = command(&rig, &ranged(0x03, 0x00, 0x00AE, 0x00AF), |rig| {
            taken(rig, flash_read(0x00AE, 0x00AF), 0)
        });
        rig.send(&GETSTATUS, &[]);
        expect(&rig, &upload(2), &[], |rig| {
            idles(rig);
            Said(Outcome::Done, vec![0xFF, 0x42], 0)
        });
    }
}

/// P1: "Demand 3 covers every such board, and two boards compared still hold the
/// same SSB." No request tells apart flash bytes of which neither is FFh:
/// READINGS 37. P5: it "reads the busy count as part of the session", so the two have
/// the same count before a request and after it.
#[test]
fn two_boards_of_level_2_with_one_ssb_answer_alike() {
    let mut random = Xorshift(0x0F1E_2D3C_4B5A_6978);
    let (mut zeros, mut others) = (Rig::new(), Rig::new());
    for at in (0..32_768).step_by(61) {
        zeros.flash[at] = 0x00;
        others.flash[at] = 0x7F;
    }
    for ssb in level_2_values() {
        let (mut one, mut two) = (zeros.clone().ssb(ssb), others.clone().ssb(ssb));
        for _ in 0..100 {
            let (state, pending) = (random.pick(&STATES), random.pick(&pendings()));
            let busy = random.pick(&[0, 0, 1, 9, 128, 256]);
            one.session = Session { state, status: 0, pending, busy };
            two.session = one.session;
            let (setup, data) = any_request(&mut random);
            assert_eq!(one.send(&setup, &data), two.send(&setup, &data));
            assert_eq!((one.session, one.config), (two.session, two.config));
            assert!(one.reply == two.reply, "{setup:02X?}");
            if one.config.level() != Level::Two {
                // A full chip erase: both are blank, and there is nothing left to tell apart.
                (one, two) = (zeros.clone().ssb(ssb), others.clone().ssb(ssb));
            }
        }
    }
}

#[test]
fn write_configuration_bytes_and_hsb_in_full() {
    let rig = Rig::new();
    for index in 0..=6_u8 {
        let values = [0x00, 0x5A, 0xFC, 0xFE];
        for value in values.into_iter().filter(|v| index != 5 || *v >= 0xFC) {
            command(&rig, &[0x04, 0x01, index, value], |rig| {
                rig.config.bytes[usize::from(index)] = value;
                taken(rig, Pending::Nothing, 0)
            });
        }
    }
    for (old, value, new) in [
        (0xBB, 0x4F, 0x4B),
        (0xBB, 0x00, 0x0B),
        (0xBB, 0xFF, 0xFB),
        (0x00, 0xFF, 0xF0),
        (0xFF, 0x00, 0x0F),
        (0x5A, 0xA5, 0xAA),
    ] {
        let mut rig = Rig::new();
        rig.config.hsb = old;
        command(&rig, &[0x04, 0x02, 0x00, value], |rig| {
            rig.config.hsb = new;
            taken(rig, Pending::Nothing, 0)
        });
    }
}

// --------------------------------------------------------- form and address

#[test]
fn order_form_level_address_length() {
    let at = |ssb| Rig::new().ssb(ssb);
    for ssb in 0..=255 {
        // Form first, even where the level would say no and the address is bad.
        command(&at(ssb), &[0x01, 0x00, 0xFF, 0xFF, 0x00], stalls);
        command(&at(ssb), &[0x01, 0x02, 0xFF, 0xFF, 0x00, 0x00], stalls);
        command(&at(ssb), &[0x03, 0x00, 0xFF, 0xFF, 0x00, 0x00, 0x00], stalls);
        command(&at(ssb), &[0x03, 0x03, 0xFF, 0xFF, 0x00, 0x00], stalls);
        command(&at(ssb), &[0x04, 0x01, 0x07, 0x00], stalls);
        command(&at(ssb), &[0x04, 0x02, 0x01, 0x00], stalls);
        command(&at(ssb), &[0x04, 0x00, 0x10], stalls);
    }
    // Level before address.
    command(&at(LEVEL_1), &ranged(0x01, 0x00, 2, 1), sets(0x03));
    for ssb in level_2_values() {
        command(&at(ssb), &transfer(1, 0x0400, 0x0400, &[0], 0), sets(0x03));
        command(&at(ssb), &ranged(0x03, 0x00, 0x8000, 0x8000), sets(0x0B));
        command(&at(ssb), &ranged(0x03, 0x02, 0x0400, 0x0400), sets(0x0B));
    }
    command(&at(LEVEL_1), &ranged(0x03, 0x00, 0x8000, 0x8000), sets(0x08));
    // Level before the whole length: six bytes are form enough.
    command(&at(LEVEL_1), &ranged(0x01, 0x00, 1, 1), sets(0x03));
    // Address before the whole length.
    command(&at(LEVEL_0), &ranged(0x01, 0x00, 2, 1), sets(0x08));
    command(&at(LEVEL_0), &ranged(0x01, 0x01, 0, 0x0400), sets(0x08));
    command(&at(LEVEL_0), &ranged(0x01, 0x00, 1, 1), stalls);
}

#[test]
fn address_boundaries() {
    let rig = Rig::new();
    for (sub, memory, last) in [(0x00, Memory::Flash, 0x7FFF_u16), (0x02, Memory::Eeprom, 0x03FF)] {
        let read = |start, end| ranged(0x03, sub, start, end);
        for (start, end) in [(0, 0), (last, last), (0, 0x03FF), (last - 0x03FF, last)] {
            command(&rig, &read(start, end), |rig| {
                taken(rig, Pending::Read { memory, start, end }, 0)
            });
        }
        for (start, end) in [
            (1, 0),
            (last + 1, last + 1),
            (last, last + 1),
            (0, 0x0400),
            (0xFFFF, 0xFFFF),
            (0, 0xFFFF),
            (0xFFFF, 0),
        ] {
            command(&rig, &read(start, end), sets(0x08));
            let code = if memory == Memory::Flash { 0 } else { 1 };
            command(&rig, &transfer(code, start, end, &[0], 0), sets(0x08));
        }
    }
    for (start, end) in [(0, 0x7FFF), (0, 0x0400), (0x7FFF, 0x7FFF), (0, 0)] {
        command(&rig, &ranged(0x03, 0x01, start, end), |rig| taken(rig, Pending::Nothing, 0));
    }
    for (start, end) in [(1, 0), (0, 0x8000), (0x8000, 0x8000), (0xFFFF, 0xFFFF)] {
        command(&rig, &ranged(0x03, 0x01, start, end), sets(0x08));
    }
    let jump = Pending::Start { kind: StartKind::Jump, address: 0x7FFF };
    command(&rig, &[0x04, 0x03, 0x01, 0x7F, 0xFF], |rig| taken(rig, jump, 0));
    command(&rig, &[0x04, 0x03, 0x01, 0x80, 0x00], sets(0x08));
    command(&rig, &[0x04, 0x03, 0x01, 0xFF, 0xFF], sets(0x08));
}

/// Every payload of up to three bytes, and which of them the table lists.
#[test]
fn forms_of_three_bytes_and_fewer() {
    assert_eq!(read_command(&[]), Reading::Stall);
    let mut listed = 0;
    for first in 0..=255 {
        assert_eq!(read_command(&[first]), Reading::Stall);
        for second in 0..=255 {
            assert_eq!(read_command(&[first, second]), Reading::Stall);
            for third in 0..=255 {
                let want = match (first, second, third) {
                    (4, 0, 0x00) => Command::EraseBlock(Block::First),
                    (4, 0, 0x20) => Command::EraseBlock(Block::Second),
                    (4, 0, 0x40) => Command::EraseBlock(Block::Third),
                    (4, 0, 0xFF) => Command::EraseAll,
                    (4, 3, 0) => Command::StartReset,
                    (5, 0, 0) => Command::ReadVersion,
                    (5, 1, 0..=6 | 0x30 | 0x31 | 0x60 | 0x61) => Command::ReadByte(third),
                    (5, 2, 0) => Command::ReadHsb,
                    _ => {
                        assert_eq!(read_command(&[first, second, third]), Reading::Stall);
                        continue;
                    }
                };
                listed += 1;
                assert_eq!(
                    read_command(&[first, second, third]),
                    Reading::Command(want, 0..0, 0..0)
                );
            }
        }
    }
    assert_eq!(listed, 4 + 1 + 1 + 11 + 1);
}

#[test]
fn forms_of_four_and_five_bytes() {
    for first in 0..=255 {
        for second in 0..=255 {
            for third in 0..=255 {
                let payload = [first, second, third, 0x5A, 0xA5];
                let want = match (first, second, third) {
                    (4, 1, 0..=6) => Some(Command::WriteByte { index: third, value: 0x5A }),
                    (4, 2, 0) => Some(Command::WriteHsb(0x5A)),
                    _ => None,
                };
                let want = want.map_or(Reading::Stall, |c| Reading::Command(c, 0..0, 0..0));
                assert_eq!(read_command(&payload[..4]), want);
                let want = match (first, second, third) {
                    (4, 3, 1) => Reading::Command(Command::StartAt(0x5AA5), 0..0, 0..0),
                    _ => Reading::Stall,
                };
                assert_eq!(read_command(&payload), want);
            }
        }
    }
    assert_eq!(read_command(&[4, 3, 1, 0x80, 0x00]), Reading::Status08);
    assert_eq!(read_command(&[4, 3, 0, 0x00, 0x00]), Reading::Stall);
}

#[test]
fn forms_of_six_bytes_and_more() {
    let (start, end) = (0x0102, 0x0203);
    for first in 0..=255 {
        for second in 0..=255 {
            let payload = ranged(first, second, start, end);
            let want = match (first, second) {
                (3, 0) => Command::Read { memory: Memory::Flash, start, end },
                (3, 1) => Command::BlankCheck { start, end },
                (3, 2) => Command::Read { memory: Memory::Eeprom, start, end },
                _ => {
                    assert_eq!(read_command(&payload), Reading::Stall);
                    continue;
                }
            };
            assert_eq!(read_command(&payload), Reading::Command(want, 0..0, 0..0));
            let longer = [&payload[..], &[0]].concat();
            assert_eq!(read_command(&longer), Reading::Stall);
        }
    }
}

#[test]
fn the_reader_cuts_a_program_transfer() {
    for code in [FLASH, EEPROM] {
        let payload = transfer(code, 0x00AF, 0x00B3, b"hello", 0x99);
        let want = program(code, 0x00AF, 0x00B3);
        assert_eq!(read_command(&payload), Reading::Command(want, 47..52, 52..68));
        for length in (6..payload.len()).chain([payload.len() + 1]) {
            let mut other = payload.clone();
            other.resize(length, 0);
            assert_eq!(read_command(&other), Reading::Stall, "{length}");
        }
        assert_eq!(read_command(&payload[..5]), Reading::Stall);
    }
    // Address before whole length, and no level.
    assert_eq!(read_command(&ranged(1, 0, 1, 0)), Reading::Status08);
    assert_eq!(read_command(&ranged(1, 2, 1, 0)), Reading::Stall);
    assert_eq!(read_command(&[1, 0, 0, 1, 0]), Reading::Stall);
    let write = Command::WriteByte { index: 5, value: 0x00 };
    assert_eq!(read_command(&[4, 1, 5, 0]), Reading::Command(write, 0..0, 0..0));
}

// -------------------------------------------------- programming and erasing

#[test]
fn programming_flash_stores_its_range_and_counts_its_pages() {
    for (start, end, pages) in [
        (0x0000, 0x0000, 1),
        (0x0000, 0x007F, 1),
        (0x0000, 0x0080, 2),
        (0x007F, 0x0080, 2),
        (0x007F, 0x0100, 3),
        (0x0080, 0x00FF, 1),
        (0x0000, 0x03FF, 8),
        (0x0001, 0x0400, 9),
        (0x007F, 0x047E, 9),
        (0x7C00, 0x7FFF, 8),
        (0x7BFF, 0x7FFE, 9),
        (0x7FFF, 0x7FFF, 1),
    ] {
        let bytes = Xorshift(u64::from(start) + 1).bytes(usize::from(end - start) + 1);
        for waste in [0x00, 0xC3] {
            command(&Rig::filled(), &transfer(0, start, end, &bytes, waste), |rig| {
                rig.flash[start.into()..=end.into()].copy_from_slice(&bytes);
                taken(rig, Pending::Nothing, pages)
            });
        }
    }
}

#[test]
fn programming_eeprom_stores_its_range_and_no_page() {
    for (start, end) in [(0, 0), (0, 0x03FF), (0x007F, 0x0080), (0x03FF, 0x03FF)] {
        let bytes = Xorshift(5).bytes(usize::from(end - start) + 1);
        command(&Rig::filled(), &transfer(1, start, end, &bytes, 0xC3), |rig| {
            rig.eeprom[start.into()..=end.into()].copy_from_slice(&bytes);
            taken(rig, Pending::Nothing, 0)
        });
    }
}

/// P4: "Programming the two memories apart". The same addresses of the one and then of
/// the other, with bytes of their own: "Programmed bytes take the new values and all others stay",
/// so either memory stays in full while the other is programmed. The page count is
/// "for programming flash, the pages that the range meets", counted here address by
/// address, "else 0".
#[test]
fn each_memory_is_programmed_by_itself_at_the_same_addresses() {
    let mut random = Xorshift(0x04);
    for start in (0x0000..=0x03FF_u16).step_by(13).chain([0x007F, 0x0080, 0x03FF]) {
        for end in [start, start + 1, start + 0x0081, 0x03FE, 0x03FF] {
            if end < start || end > 0x03FF {
                continue;
            }
            let bytes = random.bytes(usize::from(end - start) + 1);
            let range = usize::from(start)..usize::from(end) + 1;
            let pages = (start..=end).filter(|&at| at == start || at % 128 == 0).count();
            let rig = command(&Rig::filled(), &transfer(FLASH, start, end, &bytes, 0x99), |rig| {
                rig.flash[range.clone()].copy_from_slice(&bytes);
                taken(rig, Pending::Nothing, pages)
            });
            let rig = rig.at(5, 0, Pending::Nothing);
            let bytes = random.bytes(bytes.len());
            command(&rig, &transfer(EEPROM, start, end, &bytes, 0x99), |rig| {
                rig.eeprom[range].copy_from_slice(&bytes);
                taken(rig, Pending::Nothing, 0)
            });
        }
    }
}

/// "Flash: 32,768 bytes, 0000h to 7FFFh", "EEPROM: 1,024 bytes, 0000h to 03FFh":
/// what is outside the one memory may be inside the other.
#[test]
fn each_memory_has_its_own_bounds_to_program() {
    for (start, end, pages, in_eeprom) in [
        (0x03FF_u16, 0x03FF_u16, Some(1), true),
        (0x0400, 0x0400, Some(1), false),
        (0x03FF, 0x0400, Some(2), false),
        (0x0001, 0x0400, Some(9), false),
        (0x7FFF, 0x7FFF, Some(1), false),
        (0x7FFF, 0x8000, None, false),
        (0x8000, 0x8000, None, false),
    ] {
        let bytes = vec![0x42; usize::from(end - start) + 1];
        let range = usize::from(start)..usize::from(end) + 1;
        let to_flash = transfer(FLASH, start, end, &bytes, 0);
        match pages {
            Some(pages) => drop(command(&Rig::filled(), &to_flash, |rig| {
                rig.flash[range.clone()].copy_from_slice(&bytes);
                taken(rig, Pending::Nothing, pages)
            })),
            None => drop(command(&Rig::filled(), &to_flash, sets(0x08))),
        }
        let to_eeprom = transfer(EEPROM, start, end, &bytes, 0);
        if in_eeprom {
            command(&Rig::filled(), &to_eeprom, |rig| {
                rig.eeprom[range].copy_from_slice(&bytes);
                taken(rig, Pending::Nothing, 0)
            });
        } else {
            command(&Rig::filled(), &to_eeprom, sets(0x08));
        }
    }
}

/// The same bounds in the reader, of "the command, stall or 08h", at every address.
#[test]
fn the_reader_knows_each_memory_by_its_own_bounds() {
    for (code, last) in [(FLASH, 0x7FFF), (EEPROM, 0x03FF)] {
        for at in 0..=0xFFFF_u16 {
            let from = 32 + usize::from(at % 32);
            let taken =
                Reading::Command(program(code, at, at), from..from + 1, from + 1..from + 17);
            let want = if at <= last { taken } else { Reading::Status08 };
            assert_eq!(read_command(&transfer(code, at, at, &[0x42], 0)), want, "{at:04X}h");
        }
    }
}

/// P4: "Refusals: as before, in the same order." "Order: form, level, address
/// (backward, outside, over 1,024 bytes ...: 08h), and for program at last its whole
/// length", with "03h" at levels 1 and 2, for either code.
#[test]
fn both_memories_refuse_in_the_same_order() {
    let form = |code| [vec![0x01, code], vec![0x01, code, 0xFF, 0xFF, 0x00]];
    let address = |code, last: u16| {
        [
            // Backward, bare and as long as a transfer of a byte.
            ranged(0x01, code, 0x00B0, 0x00AF),
            transfer(code, 0x00B0, 0x00AF, &[0x42], 0),
            transfer(code, 0x00AF, 0x0000, &[0x42], 0),
            // Backward into the memory from beyond it.
            transfer(code, last + 1, last, &[0x42], 0),
            // 1,025 bytes, in a transfer of the right length and in a wrong one.
            transfer(code, 0x0000, 0x0400, &[0x42; 1_025], 0),
            transfer(code, last - 0x03FF, last + 1, &[0x42; 7], 0),
            // Outside, of a wrong length.
            transfer(code, last + 1, last + 1, &[0x42; 2], 0),
        ]
    };
    let length = |code, last| {
        [
            ranged(0x01, code, 0x00AF, 0x00AF),
            transfer(code, 0x00AF, 0x00AF, &[], 0),
            transfer(code, 0x00AF, 0x00AF, &[0x42; 2], 0),
            transfer(code, last, last, &[], 0),
            transfer(code, 0x0000, 0x03FF, &[0x42; 1_023], 0),
            transfer(code, 0x0000, 0x03FF, &[0x42; 1_025], 0),
        ]
    };
    for (code, last) in [(FLASH, 0x7FFF), (EEPROM, 0x03FF)] {
        for ssb in [LEVEL_0, LEVEL_1, LEVEL_2, 0x00] {
            let rig = Rig::filled().ssb(ssb);
            form(code).iter().for_each(|payload| drop(command(&rig, payload, stalls)));
            for payload in address(code, last) {
                let status = if ssb == LEVEL_0 { 0x08 } else { 0x03 };
                command(&rig, &payload, sets(status));
            }
            for payload in length(code, last) {
                if ssb == LEVEL_0 {
                    command(&rig, &payload, stalls);
                } else {
                    command(&rig, &payload, sets(0x03));
                }
            }
        }
    }
}

/// "48 + X + n, X being start mod 32": 68 bytes for five from 00AFh, to either memory,
/// and every other length that a command may have stalls.
#[test]
fn one_whole_length_programs_either_memory() {
    for (code, pages) in [(FLASH, 1), (EEPROM, 0)] {
        let payload = transfer(code, 0x00AF, 0x00B3, b"hello", 0x99);
        for length in 6..=1_103 {
            let mut payload = payload.clone();
            payload.resize(length, 0x99);
            if length == 68 {
                command(&Rig::new(), &payload, |rig| {
                    let memory = if code == FLASH { &mut rig.flash } else { &mut rig.eeprom };
                    memory[0x00AF..=0x00B3].copy_from_slice(b"hello");
                    taken(rig, Pending::Nothing, pages)
                });
            } else {
                command(&Rig::new(), &payload, stalls);
            }
        }
    }
}

#[test]
fn block_erases() {
    for (code, from, past, pages) in
        [(0x00, 0x0000, 0x2000, 64), (0x20, 0x2000, 0x4000, 64), (0x40, 0x4000, 0x8000, 128)]
    {
        let mut rig = Rig::filled();
        rig.config.bytes[0] = 0x00;
        command(&rig, &[0x04, 0x00, code], |rig| {
            rig.flash[from..past].fill(0xFF);
            taken(rig, Pending::Nothing, pages)
        });
    }
}

#[test]
fn blank_checks() {
    let mut rig = Rig::new();
    rig.flash[0x0000] = 0xFE;
    rig.flash[0x1234] = 0x7F;
    rig.flash[0x7FFF] = 0x00;
    rig.eeprom.fill(0);
    let meets = |start, end, address| {
        command(&rig, &ranged(0x03, 0x01, start, end), |rig| finds(rig, address));
    };
    meets(0x0000, 0x7FFF, 0x0000);
    meets(0x0000, 0x0000, 0x0000);
    meets(0x0001, 0x1234, 0x1234);
    meets(0x1234, 0x1234, 0x1234);
    meets(0x1234, 0x7FFF, 0x1234);
    meets(0x1235, 0x7FFF, 0x7FFF);
    meets(0x7FFF, 0x7FFF, 0x7FFF);
    for (start, end) in [(0x0001, 0x1233), (0x1235, 0x7FFE), (0x0001, 0x0001)] {
        command(&rig, &ranged(0x03, 0x01, start, end), |rig| taken(rig, Pending::Nothing, 0));
    }
}

/// Every place of a byte not FFh around the edges of the range.
#[test]
fn blank_check_finds_the_first_anywhere() {
    let mut rig = Rig::new();
    for (start, end) in [(0x0000_u16, 0x01FF_u16), (0x0105, 0x0301), (0x7E01, 0x7FFF)] {
        for place in start.saturating_sub(3)..=end.saturating_add(3).min(0x7FFF) {
            rig.flash[usize::from(place)] = 0xEF;
            rig.session = record(2, 0, Pending::Nothing);
            rig.send(&dnload(6), &ranged(0x03, 0x01, start, end));
            let inside = start <= place && place <= end;
            let pending = if inside { Pending::Blank(place) } else { Pending::Nothing };
            let status = if inside { 0x05 } else { 0x00 };
            assert_eq!(rig.session, record(3, status, pending));
            rig.flash[usize::from(place)] = 0xFF;
        }
    }
}

/// Runs a blank check, which leaves 05h and the first address, or nothing.
#[track_caller]
fn checks(rig: &mut Rig, start: u16, end: u16, first: Option<u16>) {
    rig.session = record(2, 0, Pending::Nothing);
    let answer = rig.send(&dnload(6), &ranged(0x03, 0x01, start, end));
    assert_eq!(answer, Answer { outcome: Outcome::Done, length: 0, pages: 0 });
    let (status, pending) = first.map_or((0, Pending::Nothing), |at| (5, Pending::Blank(at)));
    assert_eq!(rig.session, record(3, status, pending), "{start:04X}h-{end:04X}h");
}

/// "a range includes both ends", and no byte around it counts, of its own pages
/// either: each range, from one byte on, in the first two pages, in two on the
/// way and in the last two, with all the other flash not FFh.
#[test]
fn blank_check_keeps_to_its_range() {
    let mut rig = Rig::new();
    for first in [0x0000_u16, 0x1200, 0x7F00] {
        for start in first..=first + 0xFF {
            rig.flash.fill(0x00);
            for end in start..=first + 0xFF {
                rig.flash[usize::from(end)] = 0xFF;
                checks(&mut rig, start, end, None);
                rig.flash[usize::from(end)] = 0xFE;
                checks(&mut rig, start, end, Some(end));
                rig.flash[usize::from(start)] = 0x7F;
                checks(&mut rig, start, end, Some(start));
                rig.flash[usize::from(start)] = 0xFF;
                rig.flash[usize::from(end)] = 0xFF;
            }
        }
    }
}

/// The first and the last byte of each of the 256 pages, in a range over all of
/// them, and in one that leaves out the first byte and the last of the flash.
#[test]
fn blank_check_looks_at_each_page() {
    let mut rig = Rig::new();
    for page in 0..256_u16 {
        for place in [page * 128, page * 128 + 127] {
            rig.flash[usize::from(place)] = 0xFE;
            checks(&mut rig, 0x0000, 0x7FFF, Some(place));
            let inside = place != 0x0000 && place != 0x7FFF;
            checks(&mut rig, 0x0001, 0x7FFE, inside.then_some(place));
            rig.flash[usize::from(place)] = 0xFF;
        }
    }
}

// --------------------------------------------------------------- the writer

/// Writes into a marked room of that length and checks what is past the answer.
#[track_caller]
fn written(command: Command, data: &[u8], suffix: &[u8], length: usize) -> Result<Vec<u8>, u8> {
    let mut room = vec![0xA5; length];
    let answer = write_command(command, data, suffix, &mut room);
    let used = answer.unwrap_or(0);
    assert!(room[used..].iter().all(|&b| b == 0xA5), "room past the answer was written");
    room.truncate(used);
    answer.map(|_| room)
}

#[test]
fn the_writer_writes_the_table() {
    let (flash, eeprom) = (Memory::Flash, Memory::Eeprom);
    let listed: [(Command, &[u8]); 15] = [
        (Command::Read { memory: flash, start: 0x0102, end: 0x0304 }, &[3, 0, 1, 2, 3, 4]),
        (Command::Read { memory: eeprom, start: 0x0102, end: 0x0304 }, &[3, 2, 1, 2, 3, 4]),
        (Command::BlankCheck { start: 0x0102, end: 0x7FFF }, &[3, 1, 1, 2, 0x7F, 0xFF]),
        (Command::EraseBlock(Block::First), &[4, 0, 0]),
        (Command::EraseBlock(Block::Second), &[4, 0, 0x20]),
        (Command::EraseBlock(Block::Third), &[4, 0, 0x40]),
        (Command::EraseAll, &[4, 0, 0xFF]),
        (Command::WriteByte { index: 6, value: 0x77 }, &[4, 1, 6, 0x77]),
        (Command::WriteHsb(0x4F), &[4, 2, 0, 0x4F]),
        (Command::StartReset, &[4, 3, 0]),
        (Command::StartAt(0x7FFE), &[4, 3, 1, 0x7F, 0xFE]),
        (Command::ReadVersion, &[5, 0, 0]),
        (Command::ReadByte(0x06), &[5, 1, 6]),
        (Command::ReadByte(0x61), &[5, 1, 0x61]),
        (Command::ReadHsb, &[5, 2, 0]),
    ];
    for (command, bytes) in listed {
        for (data, suffix) in [(&[][..], &[][..]), (&[1; 99], &[2; 3])] {
            assert_eq!(written(command, data, suffix, bytes.len()).as_deref(), Ok(bytes));
            assert_eq!(written(command, data, suffix, 500).as_deref(), Ok(bytes));
            for short in 0..bytes.len() {
                assert_eq!(written(command, data, suffix, short), Err(9));
            }
        }
    }
}

#[test]
fn the_writer_writes_a_program_transfer() {
    for code in [FLASH, EEPROM] {
        let command = program(code, 0x00AF, 0x00B3);
        let suffix = b"sixteen bytes ..";
        let want = transfer(code, 0x00AF, 0x00B3, b"hello", 0);
        assert_eq!(want.len(), 48 + 15 + 5);
        assert_eq!(written(command, b"hello", suffix, want.len()), Ok(want.clone()));
        assert_eq!(written(command, b"hello", suffix, 2_000), Ok(want.clone()));
        for short in 0..want.len() {
            assert_eq!(written(command, b"hello", suffix, short), Err(9));
        }
    }
}

/// Refusal 8 whatever the room, so that it comes before 9.
#[track_caller]
fn refused_8(command: Command, data: &[u8], suffix: &[u8]) {
    for length in [0, 3, 64, 3_000] {
        assert_eq!(written(command, data, suffix, length), Err(8), "{command:?}");
    }
}

#[test]
fn writer_refusal_8_by_range() {
    for (code, memory, last) in [(FLASH, Memory::Flash, 0x7FFF), (EEPROM, Memory::Eeprom, 0x03FF)] {
        for (start, end) in [
            (1_u16, 0_u16),
            (last, last + 1),
            (last + 1, last + 1),
            (0, 0x0400),
            (0xFFFF, 0xFFFF),
            (0, 0xFFFF),
        ] {
            let data = vec![0; usize::from(end.saturating_sub(start)) + 1];
            refused_8(program(code, start, end), &data, &[7; 16]);
            refused_8(Command::Read { memory, start, end }, &[], &[]);
        }
    }
    for (start, end) in [(1, 0), (0, 0x8000), (0x8000, 0x8000), (0xFFFF, 0xFFFF)] {
        refused_8(Command::BlankCheck { start, end }, &[], &[]);
    }
    for address in [0x8000, 0xFFFF] {
        refused_8(Command::StartAt(address), &[], &[]);
    }
}

#[test]
fn writer_refusal_8_by_data_and_suffix() {
    for code in [FLASH, EEPROM] {
        let command = program(code, 0, 4);
        for length in [0, 4, 6, 1_024] {
            refused_8(command, &vec![0; length], &[7; 16]);
        }
        for length in [0, 15, 17] {
            refused_8(command, &[0; 5], &vec![0; length]);
        }
        assert_eq!(written(command, &[0; 5], &[7; 16], 52), Err(9));
        assert_eq!(written(command, &[0; 5], &[7; 16], 53).map(|w| w.len()), Ok(53));
    }
}

#[test]
fn writer_refusal_8_by_index() {
    for index in 0..=255 {
        if index > 6 {
            refused_8(Command::WriteByte { index, value: 0 }, &[], &[]);
        }
        if index > 6 && ![0x30, 0x31, 0x60, 0x61].contains(&index) {
            refused_8(Command::ReadByte(index), &[], &[]);
        } else {
            assert_eq!(written(Command::ReadByte(index), &[], &[], 3), Ok(vec![5, 1, index]));
        }
    }
}

#[test]
fn writer_boundaries() {
    let suffix = [9; 16];
    for (code, start, whole) in [
        (FLASH, 0x0000, 1_072),
        (FLASH, 0x7C00, 1_072),
        (FLASH, 0x001F, 1_103),
        (EEPROM, 0x0000, 1_072),
    ] {
        let command = program(code, start, start + 0x03FF);
        let data = [0x5A; 1_024];
        assert_eq!(written(command, &data, &suffix, 1_103).map(|w| w.len()), Ok(whole));
        let longer = program(code, start, start + 0x0400);
        assert_eq!(written(longer, &[0x5A; 1_025], &suffix, 1_104), Err(8));
    }
    for value in 0..=255 {
        let command = Command::WriteByte { index: 5, value };
        assert_eq!(written(command, &[], &[], 4), Ok(vec![4, 1, 5, value]));
    }
}

// ---------------------------------------------------------------- round trip

fn any_command(random: &mut Xorshift) -> Command {
    let (code, memory, size) =
        random.pick(&[(FLASH, Memory::Flash, 32_768), (EEPROM, Memory::Eeprom, 1_024)]);
    let start = random.below(size);
    let most = random.pick(&[1, 2, 40, 300, 1_024]);
    let end = (start + random.below(most)).min(size - 1);
    let (start, end) = (start as u16, end as u16);
    match random.below(13) {
        0..=2 => program(code, start, end),
        3 => Command::Read { memory, start, end },
        4 => {
            let (one, two) = (random.word() & 0x7FFF, random.word() & 0x7FFF);
            Command::BlankCheck { start: one.min(two), end: one.max(two) }
        }
        5 => Command::EraseBlock(random.pick(&[Block::First, Block::Second, Block::Third])),
        6 => Command::EraseAll,
        7 => Command::WriteByte { index: random.below(7) as u8, value: random.byte() },
        8 => Command::WriteHsb(random.byte()),
        9 => random.pick(&[Command::StartReset, Command::StartAt(start)]),
        10 => Command::ReadVersion,
        11 => Command::ReadByte(random.pick(&[0, 1, 2, 3, 4, 5, 6, 0x30, 0x31, 0x60, 0x61])),
        _ => Command::ReadHsb,
    }
}

/// The code and the ends of a program command.
fn program_parts(command: Command) -> Option<(u8, u16, u16)> {
    match command {
        Command::ProgramFlash { start, end } => Some((FLASH, start.0, end.0)),
        Command::ProgramEeprom { start, end } => Some((EEPROM, start.0, end.0)),
        _ => None,
    }
}

/// "Reading what it wrote gives the same command, data and suffix."
#[test]
fn reading_what_was_written() {
    let mut random = Xorshift(0x0123_4567_89AB_CDEF);
    for _ in 0..20_000 {
        let command = any_command(&mut random);
        let (data, suffix) = match program_parts(command) {
            Some((_, start, end)) => (random.bytes(usize::from(end - start) + 1), random.bytes(16)),
            None => (vec![], vec![]),
        };
        let payload = written(command, &data, &suffix, 1_103).unwrap();
        let Reading::Command(again, data_place, suffix_place) = read_command(&payload) else {
            panic!("{command:?} is not read back");
        };
        assert_eq!(again, command);
        assert_eq!(payload[data_place], data);
        assert_eq!(payload[suffix_place], suffix);
    }
}

/// "01h, 00h flash or 01h EEPROM, start, end, then the rest": what is written for the
/// two memories differs in its second byte alone, and each is read as its own case.
#[test]
fn the_second_byte_alone_tells_the_memory_to_program() {
    for (start, end) in [(0, 0), (0x00AF, 0x00B3), (0x001F, 0x03FF), (0, 0x03FF), (0x03FF, 0x03FF)]
    {
        let data = vec![0x5A; usize::from(end - start) + 1];
        let suffix = b"sixteen bytes ..";
        let [mut flash, eeprom] = [FLASH, EEPROM].map(|code| {
            let payload = written(program(code, start, end), &data, suffix, 1_103).unwrap();
            let Reading::Command(again, data_place, suffix_place) = read_command(&payload) else {
                panic!("{start:04X}h-{end:04X}h is not read back");
            };
            assert_eq!(again, program(code, start, end));
            assert_eq!((&payload[data_place], &payload[suffix_place]), (&data[..], &suffix[..]));
            payload
        });
        assert_eq!((flash[1], eeprom[1]), (0x00, 0x01));
        flash[1] = 0x01;
        assert_eq!(flash, eeprom);
    }
}

/// "A payload that a level 0 board in state 2 answers without stall or 08h,
/// with zero filler and pad, is written back byte for byte." On the way: at
/// level 0 the board stalls and gives 08h where the reader does.
#[test]
fn writing_back_what_the_board_takes() {
    let mut random = Xorshift(0xFEDC_BA98_7654_3210);
    let mut rig = Rig::new();
    let mut written_back = 0;
    for _ in 0..30_000 {
        let payload = any_payload(&mut random);
        rig.session = record(2, 0, Pending::Nothing);
        rig.config.bytes[5] = LEVEL_0;
        let answer = rig.send(&dnload(payload.len()), &payload);
        match read_command(&payload) {
            Reading::Stall => assert_eq!(answer.outcome, Outcome::Stall),
            Reading::Status08 => {
                assert_eq!(answer.outcome, Outcome::Done);
                assert_eq!((rig.session.state, rig.session.status), (10, 0x08));
            }
            Reading::Command(command, data, suffix) => {
                assert_eq!(answer.outcome, Outcome::Done);
                assert_ne!(rig.session.status, 0x08);
                let room = payload.len();
                let again = written(command, &payload[data], &payload[suffix], room);
                assert_eq!(again, Ok(payload));
                written_back += 1;
            }
        }
    }
    assert!(written_back > 5_000);
}

/// A payload of 1 to 1,103 bytes with zero filler and pad, often a command
/// and often a little off.
fn any_payload(random: &mut Xorshift) -> Vec<u8> {
    let command = any_command(random);
    let mut payload = match program_parts(command) {
        Some((code, start, end)) => {
            let bytes = random.bytes(usize::from(end - start) + 1);
            transfer(code, start, end, &bytes, 0)
        }
        None => written(command, &[], &[], 6).unwrap(),
    };
    match random.below(6) {
        0 => {
            let place = random.below(payload.len().min(6));
            payload[place] = random.byte();
            // A changed start may lay the pad over data: "with zero filler and pad".
            if payload[0] == 1 && payload.len() > 63 {
                payload[6..32].fill(0);
                let pad = usize::from(payload[3] % 32);
                payload[32..32 + pad].fill(0);
            }
        }
        1 => drop(payload.pop()),
        2 => payload.push(0),
        _ => {}
    }
    payload.resize(payload.len().clamp(1, 1_103), 0);
    payload
}

// -------------------------------------------------------------- the job file

fn field(tag: u8, value: &[u8]) -> Vec<u8> {
    let mut field = vec![tag];
    field.extend_from_slice(&u16::try_from(value.len()).unwrap().to_be_bytes());
    field.extend_from_slice(value);
    field
}

fn request(setup: [u8; 8], data: &[u8]) -> Vec<u8> {
    field(0x01, &[&setup[..], data].concat())
}

/// The value inside that many groups.
fn nested(deep: usize, value: &[u8]) -> Vec<u8> {
    (0..deep).fold(value.to_vec(), |inside, _| field(0x02, &inside))
}

fn printed(file: &[u8]) -> String {
    let mut out = b"before ".to_vec();
    run(file, &mut out);
    String::from_utf8(out).unwrap().strip_prefix("before ").unwrap().to_string()
}

fn hex(text: &str) -> Vec<u8> {
    text.as_bytes()
        .chunks(2)
        .map(|pair| u8::from_str_radix(std::str::from_utf8(pair).unwrap(), 16).unwrap())
        .collect()
}

#[test]
fn the_job_of_the_paper() {
    let file = hex(concat!(
        "02000B010008A105000000000100",
        "01000B2101000000000300050100",
        "010008A103000000000600",
        "010008A102000000000100",
    ));
    let want = concat!(
        "job 4\n",
        "1 done 2 00 0 02\n",
        "2 done 3 00 0 -\n",
        "3 done 5 00 0 000000000500\n",
        "4 done 2 00 0 FF\n",
    );
    assert_eq!(printed(&file), want);
    assert_eq!(verdict(&file), Ok(()));
    assert_eq!(count(&file), 4);
}

/// The program itself, from standard input to standard output.
#[test]
fn the_binary_prints_what_run_appends() {
    let bad = field(9, b"");
    for file in [&b""[..], &bad, &request(GETSTATE, &[]).repeat(500)] {
        let mut child = Process::new(env!("CARGO_BIN_EXE_second"))
            .stdin(Stdio::piped())
            .stdout(Stdio::piped())
            .spawn()
            .unwrap();
        child.stdin.take().unwrap().write_all(file).unwrap();
        let output = child.wait_with_output().unwrap();
        assert!(output.status.success());
        assert_eq!(String::from_utf8(output.stdout).unwrap(), printed(file));
    }
}

#[test]
fn an_empty_job() {
    assert_eq!(printed(&[]), "job 0\n");
    assert_eq!(verdict(&[]), Ok(()));
    assert_eq!(count(&[]), 0);
    for file in [field(3, b""), field(2, b""), nested(4, &field(3, b"note"))] {
        assert_eq!(printed(&file), "job 0\n");
    }
}

#[test]
fn refusal_11_fewer_than_three_bytes_left() {
    for rest in [&[1][..], &[1, 0], &[9], &[9, 9], &[2], &[3, 0]] {
        assert_eq!(verdict(rest), Err((11, 0)));
        let file = [request(GETSTATE, &[]), rest.to_vec()].concat();
        assert_eq!(verdict(&file), Err((11, 11)));
        assert_eq!(printed(&file), "refused 11 at 11\n");
        // Left in its group, however much follows the group.
        let file = [field(2, rest), request(GETSTATE, &[])].concat();
        assert_eq!(verdict(&file), Err((11, 3)));
        let file = field(2, &[request(GETSTATE, &[]), rest.to_vec()].concat());
        assert_eq!(verdict(&file), Err((11, 14)));
    }
}

#[test]
fn refusal_11_a_value_beyond_what_encloses_it() {
    for tag in [1, 2, 3, 0, 4, 0xFF] {
        assert_eq!(verdict(&[tag, 0, 1]), Err((11, 0)));
        assert_eq!(verdict(&[tag, 0xFF, 0xFF, 1, 2, 3]), Err((11, 0)));
        assert_eq!(verdict(&[tag, 0, 9, 1, 2, 3, 4, 5, 6, 7, 8]), Err((11, 0)));
        // Inside the file, but beyond the group that holds the field.
        let file = [field(2, &[tag, 0, 1]), vec![0; 20]].concat();
        assert_eq!(verdict(&file), Err((11, 3)));
        assert_eq!(printed(&file), "refused 11 at 3\n");
        let file = [field(2, &field(2, &[tag, 0, 9, 0])), vec![0; 20]].concat();
        assert_eq!(verdict(&file), Err((11, 6)));
    }
    // High byte first: 0100h is 256.
    assert_eq!(verdict(&[3, 1, 0, 0]), Err((11, 0)));
    assert_eq!(verdict(&[&[1, 1, 0][..], &[0; 256]].concat()), Ok(()));
}

#[test]
fn refusal_12_unknown_tag() {
    for tag in 0..=255 {
        let known = [1, 2, 3].contains(&tag);
        let want = if known { Ok(()) } else { Err((12, 0)) };
        assert_eq!(verdict(&field(tag, &field(3, b"12345"))), want);
        let inside = field(2, &field(tag, &[]));
        let want = match tag {
            1 => Err((14, 3)),
            2 | 3 => Ok(()),
            _ => Err((12, 3)),
        };
        assert_eq!(verdict(&inside), want);
    }
    // 11 is tried before 12, and 12 needs its cause alone.
    assert_eq!(verdict(&[9, 0, 1]), Err((11, 0)));
    assert_eq!(verdict(&[9, 0, 0]), Err((12, 0)));
    assert_eq!(verdict(&nested(4, &[9, 0, 0])), Err((12, 12)));
}

#[test]
fn refusal_13_a_group_inside_four_others() {
    for deep in 0..=4 {
        assert_eq!(verdict(&nested(deep, &request(GETSTATE, &[]))), Ok(()));
        assert_eq!(count(&nested(deep, &request(GETSTATE, &[]))), 1);
    }
    for deep in 5..=9 {
        let file = nested(deep, &request(GETSTATE, &[]));
        assert_eq!(verdict(&file), Err((13, 12)));
        assert_eq!(printed(&file), "refused 13 at 12\n");
    }
    assert_eq!(verdict(&nested(5, &[])), Err((13, 12)));
    // 11 before 13, and what the fifth group holds is not reached.
    assert_eq!(verdict(&nested(4, &[2, 0, 1])), Err((11, 12)));
    assert_eq!(verdict(&nested(4, &field(2, &[9, 0, 0]))), Err((13, 12)));
    // Four deep again after leaving four deep.
    let file = [nested(4, &[]), nested(4, &request(GETSTATE, &[]))].concat();
    assert_eq!((verdict(&file), count(&file)), (Ok(()), 1));
    let file = nested(3, &[field(2, &[]), field(2, &field(2, &[]))].concat());
    assert_eq!(verdict(&file), Err((13, 15)));
}

#[test]
fn refusal_14_a_request_under_8_bytes() {
    for length in 0..=7 {
        assert_eq!(verdict(&field(1, &vec![0; length])), Err((14, 0)));
        let file = [field(3, b"x"), field(1, &vec![0; length])].concat();
        assert_eq!(printed(&file), "refused 14 at 4\n");
    }
    assert_eq!(verdict(&field(1, &[0; 8])), Ok(()));
    assert_eq!(verdict(&[1, 0, 7, 0]), Err((11, 0)));
}

#[test]
fn refusal_15_a_note_over_64() {
    assert_eq!(verdict(&field(3, &[0; 64])), Ok(()));
    assert_eq!(verdict(&field(3, &[0; 65])), Err((15, 0)));
    assert_eq!(verdict(&field(2, &field(3, &[0; 65]))), Err((15, 3)));
    assert_eq!(printed(&field(3, &[0; 300])), "refused 15 at 0\n");
    assert_eq!(verdict(&[3, 0, 65, 0]), Err((11, 0)));
}

#[test]
fn refusal_16_first_of_all() {
    let mut file = [request(GETSTATE, &[]), field(1, &[0; 16_384 - 11 - 3])].concat();
    assert_eq!(file.len(), 16_384);
    assert_eq!((verdict(&file), count(&file)), (Ok(()), 2));
    file.push(0);
    assert_eq!(verdict(&file), Err((16, 0)));
    assert_eq!(printed(&file), "refused 16 at 0\n");
    for byte in [0, 1, 2, 3, 0xFF] {
        assert_eq!(verdict(&[byte; 16_385]), Err((16, 0)));
        assert_eq!(verdict(&vec![byte; 100_000]), Err((16, 0)));
        assert_ne!(verdict(&[byte; 16_384]), Err((16, 0)));
    }
}

#[test]
fn the_first_bad_field_in_file_order() {
    let bad: [(u8, Vec<u8>); 4] =
        [(12, field(9, &[])), (13, nested(5, &[])), (14, field(1, &[])), (15, field(3, &[0; 65]))];
    for (number, one) in &bad {
        let within = if *number == 13 { 12 } else { 0 };
        for (_, other) in &bad {
            let file = [&one[..], other].concat();
            assert_eq!(verdict(&file), Err((*number, within)));
            let file = [&request(GETSTATE, &[])[..], one, other, &[1]].concat();
            assert_eq!(verdict(&file), Err((*number, 11 + within)));
        }
        if *number != 13 {
            // A bad field in a group comes before one behind the group,
            // and behind a good group before one further on.
            let file = [field(2, one), vec![1]].concat();
            assert_eq!(verdict(&file), Err((*number, 3)));
            let file = [nested(2, &field(3, b"")), one.clone(), vec![1]].concat();
            assert_eq!(verdict(&file), Err((*number, 9)));
        }
    }
    // A group that runs out of the file is bad itself, before what it holds.
    assert_eq!(verdict(&[2, 0, 4, 9, 0, 0]), Err((11, 0)));
}

#[test]
fn requests_come_in_file_order_through_all_groups() {
    let numbered = |n: u8| request([0x21, 1, n, 0, 0, 0, n, 0], &vec![n; n.into()]);
    let file = [
        field(3, b"a note"),
        numbered(1),
        field(
            2,
            &[numbered(2), nested(3, &[numbered(3), numbered(4)].concat()), numbered(5)].concat(),
        ),
        field(2, &[]),
        nested(4, &numbered(6)),
        numbered(7),
        field(3, &[1; 64]),
    ]
    .concat();
    assert_eq!(verdict(&file), Ok(()));
    assert_eq!(count(&file), 7);
    let found: Vec<_> = requests(&file).collect();
    assert_eq!(found.len(), 7);
    for (n, request) in (1..=7).zip(found) {
        assert_eq!(request.setup, &[0x21, 1, n, 0, 0, 0, n, 0]);
        assert_eq!(request.data, vec![n; n.into()]);
    }
}

#[test]
fn the_most_requests_that_fit() {
    let mut file = request(GETSTATE, &[]).repeat(1_489);
    file.extend_from_slice(&field(3, b"xy"));
    assert_eq!(file.len(), 16_384);
    assert_eq!(count(&file), 1_489);
    let text = printed(&file);
    let lines: Vec<_> = text.lines().collect();
    assert_eq!(lines.len(), 1_490);
    assert_eq!(lines[0], "job 1489");
    for (number, line) in lines.iter().enumerate().skip(1) {
        assert_eq!(*line, format!("{number} done 2 00 0 02"));
    }
}

#[test]
fn lines_of_every_outcome() {
    let file = [
        request(dnload(4), &[0x04, 0x01, 0x05, 0xFE]),
        request(GETSTATUS, &[]),
        request(dnload(3), &[0x04, 0x00, 0x20]),
        request(GETSTATE, &[]),
        request(DETACH, &[]),
        request(CLRSTATUS, &[]),
        request(dnload(3), &[0x04, 0x00, 0xFF]),
        request(GETSTATUS, &[]),
        request(GETSTATUS, &[]),
        request(dnload(5), &[0x04, 0x03, 0x01, 0x12]),
        request(dnload(5), &[0x04, 0x03, 0x01, 0x12, 0x34]),
        request(dnload(0), &[]),
        request(GETSTATE, &[]),
        request(GETSTATE, &[0]),
    ]
    .concat();
    let want = concat!(
        "job 14\n",
        "1 done 3 00 0 -\n",
        "2 done 5 00 0 000000000500\n",
        "3 done 10 03 0 -\n",
        "4 done 10 03 0 0A\n",
        "5 stall 10 03 0 -\n",
        "6 done 2 00 0 -\n",
        "7 done 3 00 256 -\n",
        "8 done 4 00 0 00000A000400\n",
        "9 done 5 00 0 000000000500\n",
        "10 ref4 5 00 0 -\n",
        "11 done 3 00 0 -\n",
        "12 start 0 00 0 -\n",
        "13 ref7 0 00 0 -\n",
        "14 ref4 0 00 0 -\n",
    );
    assert_eq!(printed(&file), want);
}

#[test]
fn a_program_transfer_through_the_bench() {
    let bytes: Vec<u8> = (0..=255).cycle().take(1_024).collect();
    let file = [
        request(dnload(1_103), &transfer(0, 0x007F, 0x047E, &bytes, 0)),
        request(GETSTATUS, &[]),
        request(GETSTATUS, &[]),
        nested(4, &request(dnload(6), &ranged(0x03, 0x00, 0x007E, 0x047D))),
        request(GETSTATUS, &[]),
        request(upload(0xFFFF), &[]),
        request(upload(1), &[]),
        request(GETSTATUS, &[]),
    ]
    .concat();
    let mut read = String::from("FF");
    bytes[..1_023].iter().for_each(|byte| read.push_str(&format!("{byte:02X}")));
    let want = format!(
        "job 8\n1 done 3 00 9 -\n2 done 4 00 0 005A00000400\n3 done 5 00 0 000000000500\n\
         4 done 3 00 0 -\n5 done 5 00 0 000000000500\n6 done 2 00 0 {read}\n\
         7 stall 10 0F 0 -\n8 done 10 0F 0 0F0000000A00\n"
    );
    assert_eq!(printed(&file), want);
}

/// P4: "twice someone passed the wrong one in the bench code". Two bytes over a page's
/// edge go to flash, two others to the same addresses of the EEPROM, and both are read
/// back, "03h, 00h flash or 02h EEPROM".
#[test]
fn both_memories_through_the_bench() {
    let data = |payload: Vec<u8>| request(dnload(payload.len()), &payload);
    let file = [
        data(transfer(FLASH, 0x007F, 0x0080, &[0x12, 0x34], 0)),
        request(GETSTATUS, &[]),
        request(GETSTATUS, &[]),
        data(transfer(EEPROM, 0x007F, 0x0080, &[0x56, 0x78], 0)),
        request(GETSTATUS, &[]),
        data(ranged(0x03, 0x00, 0x007E, 0x0081)),
        request(GETSTATUS, &[]),
        request(upload(4), &[]),
        data(ranged(0x03, 0x02, 0x007E, 0x0081)),
        request(GETSTATUS, &[]),
        request(upload(4), &[]),
        data(transfer(FLASH, 0x0400, 0x0400, &[0x9A], 0)),
        request(GETSTATUS, &[]),
        request(GETSTATUS, &[]),
        data(transfer(EEPROM, 0x0400, 0x0400, &[0x9A], 0)),
    ]
    .concat();
    let want = concat!(
        "job 15\n",
        "1 done 3 00 2 -\n",
        "2 done 4 00 0 001400000400\n",
        "3 done 5 00 0 000000000500\n",
        "4 done 3 00 0 -\n",
        "5 done 5 00 0 000000000500\n",
        "6 done 3 00 0 -\n",
        "7 done 5 00 0 000000000500\n",
        "8 done 2 00 0 FF1234FF\n",
        "9 done 3 00 0 -\n",
        "10 done 5 00 0 000000000500\n",
        "11 done 2 00 0 FF5678FF\n",
        "12 done 3 00 1 -\n",
        "13 done 4 00 0 000A00000400\n",
        "14 done 5 00 0 000000000500\n",
        "15 done 10 08 0 -\n",
    );
    assert_eq!(printed(&file), want);
}

/// P5 through the bench: a job that programs and asks the status twice, one that aborts
/// while pages are burnt, and one that does not wait. A line shows the state after its
/// request, the pages of that request alone, and the six bytes.
#[test]
fn a_busy_board_through_the_bench() {
    let data = |payload: Vec<u8>| request(dnload(payload.len()), &payload);
    let status = || request(GETSTATUS, &[]);
    let file = [
        data(transfer(FLASH, 0x00AF, 0x00AF, &[0x42], 0)),
        request(GETSTATE, &[]),
        status(),
        request(GETSTATE, &[]),
        status(),
        request(GETSTATE, &[]),
        status(),
        // 05h is reported at once: a blank check has no page.
        data(ranged(0x03, 0x01, 0x0000, 0x7FFF)),
        status(),
        request(upload(2), &[]),
        // Full chip erase, aborted in state 4.
        data(vec![0x04, 0x00, 0xFF]),
        status(),
        request(ABORT, &[]),
        status(),
        // The third block, and the next command comes too soon.
        data(vec![0x04, 0x00, 0x40]),
        status(),
        data(vec![0x04, 0x00, 0x00]),
        status(),
        request(CLRSTATUS, &[]),
        data(vec![0x04, 0x00, 0x00]),
        request(ABORT, &[]),
        data(transfer(FLASH, 0x007F, 0x047E, &[0x42; 1_024], 0)),
        status(),
        request(upload(1), &[]),
    ]
    .concat();
    let want = concat!(
        "job 24\n",
        "1 done 3 00 1 -\n",
        "2 done 3 00 0 03\n",
        "3 done 4 00 0 000A00000400\n",
        "4 done 4 00 0 04\n",
        "5 done 5 00 0 000000000500\n",
        "6 done 5 00 0 05\n",
        "7 done 5 00 0 000000000500\n",
        "8 done 3 05 0 -\n",
        "9 done 5 05 0 050000000500\n",
        "10 done 2 00 0 00AF\n",
        "11 done 3 00 256 -\n",
        "12 done 4 00 0 00000A000400\n",
        "13 done 2 00 0 -\n",
        "14 done 2 00 0 000000000200\n",
        "15 done 3 00 128 -\n",
        "16 done 4 00 0 000005000400\n",
        "17 stall 10 0F 0 -\n",
        "18 done 10 0F 0 0F0000000A00\n",
        "19 done 2 00 0 -\n",
        "20 done 3 00 64 -\n",
        "21 done 2 00 0 -\n",
        "22 done 3 00 9 -\n",
        "23 done 4 00 0 005A00000400\n",
        "24 stall 10 0F 0 -\n",
    );
    assert_eq!(printed(&file), want);
}

#[test]
fn refused_jobs_run_nothing() {
    let file = [request(GETSTATE, &[]), field(9, &[])].concat();
    assert_eq!(printed(&file), "refused 12 at 11\n");
}

// ----------------------------------------------------------------- totality

fn any_pending(random: &mut Xorshift) -> Pending {
    let near = [0, 1, 0x03FF, 0x0400, 0x7C00, 0x7FFF, 0x8000, 0xFFFF, random.word()];
    let (start, end) = (random.pick(&near), random.pick(&near));
    match random.below(5) {
        0 => Pending::Nothing,
        1 => Pending::Read { memory: random.pick(&[Memory::Flash, Memory::Eeprom]), start, end },
        2 => Pending::Blank(start),
        3 => Pending::Byte(random.byte()),
        _ => {
            let kind = random.pick(&[StartKind::Reset, StartKind::Jump]);
            Pending::Start { kind, address: start }
        }
    }
}

/// Gives the board any record, and now and then a memory of a wrong length.
fn shake(rig: &mut Rig, random: &mut Xorshift) {
    let odd = random.below(12);
    let wrong =
        [[0, 32_767, 32_769], [0, 1_023, 1_025], [0, 1_023, 3_000]].map(|s| random.pick(&s));
    rig.flash.resize(if odd == 0 { wrong[0] } else { 32_768 }, 0x11);
    rig.eeprom.resize(if odd == 1 { wrong[1] } else { 1_024 }, 0x22);
    rig.reply.resize(if odd == 2 { wrong[2] } else { 1_024 }, 0x33);
    let byte = random.byte();
    let state = random.pick(&[0, 2, 2, 2, 3, 4, 5, 5, 5, 6, 9, 9, 10, byte]);
    let status = random.pick(&[0, 5, 0x0F, 0x10, byte]);
    let busy = random.pick(&[0, 0, 0, 1, 9, 256, 257, u16::from(byte)]);
    rig.session = Session { state, status, pending: any_pending(random), busy };
    rig.config.bytes[5] = random.pick(&[0xFF, 0xFE, 0xFC, byte]);
}

/// A request, often a command, and now and then with a setup byte off.
fn any_request(random: &mut Xorshift) -> ([u8; 8], Vec<u8>) {
    let data = if random.below(2) == 0 { any_payload(random) } else { vec![] };
    let mut setup = dnload(data.len());
    if data.is_empty() {
        setup = random.pick(&[GETSTATE, GETSTATUS, CLRSTATUS, ABORT, upload(77)]);
    }
    if random.below(8) == 0 {
        setup[random.below(8)] = random.byte();
    }
    (setup, data)
}

/// Anything at all is answered, and a refusal or a stall moves what it may.
#[test]
fn step_is_total() {
    let mut random = Xorshift(0x1357_9BDF_0246_8ACE);
    let mut rig = Rig::filled();
    for _ in 0..40_000 {
        shake(&mut rig, &mut random);
        let (setup, data) = any_request(&mut random);
        let before = rig.clone();
        let answer = rig.send(&setup[..8 - random.below(50) / 49], &data);
        match answer.outcome {
            Outcome::Refused(number) => {
                assert!((1..=7).contains(&number));
                assert!(rig == before && answer.length == 0 && answer.pages == 0);
            }
            Outcome::Stall => {
                assert_eq!((rig.session.state, rig.session.busy), (10, 0));
                rig.session = before.session;
                assert!(rig == before && answer.length == 0 && answer.pages == 0);
            }
            Outcome::Done | Outcome::Start { .. } => {
                assert!(answer.length <= 1_024 && answer.pages <= 256);
                assert!(rig.session.busy <= 256);
                assert!(rig.reply[answer.length..] == before.reply[answer.length..]);
            }
        }
    }
}

/// Any bytes are judged, cut and run without a panic.
#[test]
fn the_job_functions_are_total() {
    let mut random = Xorshift(0x2468_ACE0_1357_9BDF);
    for _ in 0..20_000 {
        let length = random.pick(&[0, 1, 2, 3, 11, 40, 300]);
        let mut file = random.bytes(length);
        for byte in &mut file {
            *byte = random.pick(&[0, 0, 1, 2, 3, 8, 9, 11, *byte]);
        }
        let mut out = vec![];
        run(&file, &mut out);
        let all = requests(&file).count();
        match verdict(&file) {
            Ok(()) => {
                assert_eq!(all, count(&file));
                assert!(out.starts_with(format!("job {all}\n").as_bytes()));
            }
            Err((number, at)) => {
                assert!((11..=15).contains(&number) && at < file.len());
                assert_eq!(out, format!("refused {number} at {at}\n").as_bytes());
            }
        }
    }
}
