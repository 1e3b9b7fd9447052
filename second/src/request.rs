//! One request against the board.

use crate::board::{program_eeprom, program_flash, Board};
use crate::command::{form, program_data, Command};
use crate::config::{Config, Level, VERSION};
use crate::session::{
    Pending, Session, StartKind, STATE_APPLICATION, STATE_DOWNLOAD_BUSY, STATE_DOWNLOAD_IDLE,
    STATE_DOWNLOAD_SYNC, STATE_ERROR, STATE_IDLE, STATE_MANIFEST_SYNC, STATE_UPLOAD_IDLE,
    STATUS_ADDRESS, STATUS_NOT_BLANK, STATUS_OK, STATUS_STALL,
};

/// The least reply buffer; no answer is longer.
pub const REPLY_LEAST: usize = 1_024;
/// "DNLOAD, wLength over 1,103: stall."
const DOWNLOAD_MOST: usize = 1_103;
/// "ten milliseconds a page" (02, P5).
const PAGE_TIME: u32 = 10;

/// The wrong variant whose second GETSTATUS does not clear the busy count.
const SECOND_KEEPS: bool = cfg!(feature = "second-getstatus-keeps-busy-count");
/// The wrong variant that turns the timeout bytes round.
const HIGH_FIRST: bool = cfg!(feature = "timeout-high-byte-first");
/// The wrong variant that takes CLRSTATUS for one of those that clear the busy count.
const CLRSTATUS_CLEARS: bool = cfg!(feature = "clrstatus-clears-busy-count");
/// The wrong variant that sets the busy count only where a page is stored.
const BLANK_CHECK_KEEPS: bool = cfg!(feature = "blank-check-keeps-busy-count");
/// The wrong variant that keeps to 01's states of ABORT.
const ABORT_STALLS: bool = cfg!(feature = "abort-stalls-in-state-4");

/// bmRequestType of the requests towards the device.
const TO_DEVICE: u8 = 0x21;
/// bmRequestType of the requests towards the host.
const TO_HOST: u8 = 0xA1;

const DNLOAD: u8 = 1;
const UPLOAD: u8 = 2;
const GETSTATUS: u8 = 3;
const CLRSTATUS: u8 = 4;
const GETSTATE: u8 = 5;
const ABORT: u8 = 6;

/// How a request ended.
#[derive(Clone, Copy, Debug, PartialEq, Eq)]
pub enum Outcome {
    /// Done, "also where an error status is set".
    Done,
    /// Stalled.
    Stall,
    /// The application is started.
    Start {
        /// How it is started.
        kind: StartKind,
        /// Where it is started.
        address: u16,
    },
    /// Refused, with the number.
    Refused(u8),
}

/// What a request gives back, besides the reply bytes.
#[derive(Clone, Copy, Debug, PartialEq, Eq)]
pub struct Answer {
    /// How it ended.
    pub outcome: Outcome,
    /// How many reply bytes are sent.
    pub length: usize,
    /// How many flash pages were stored.
    pub pages: usize,
}

impl Answer {
    const fn empty(outcome: Outcome) -> Answer {
        Answer { outcome, length: 0, pages: 0 }
    }

    const fn refused(number: u8) -> Answer {
        Answer::empty(Outcome::Refused(number))
    }

    const fn sent(length: usize) -> Answer {
        Answer { outcome: Outcome::Done, length, pages: 0 }
    }
}

/// "bmRequestType, bRequest, wValue, wIndex, wLength, each word low byte first".
struct Setup {
    kind: u8,
    request: u8,
    value: u16,
    index: u16,
    length: u16,
}

impl Setup {
    fn read(setup: &[u8]) -> Option<Setup> {
        let &[kind, request, v0, v1, i0, i1, l0, l1] = setup else { return None };
        let word = |low, high| u16::from_le_bytes([low, high]);
        Some(Setup {
            kind,
            request,
            value: word(v0, v1),
            index: word(i0, i1),
            length: word(l0, l1),
        })
    }

    /// How many data bytes come with it; bit 7 set is towards the host.
    fn data_bytes(&self) -> usize {
        if self.kind & 0x80 == 0 {
            usize::from(self.length)
        } else {
            0
        }
    }
}

/// Answers one request: refusals 1 to 7 "checked in this order", then the
/// request itself. Gives the outcome, the count of reply bytes sent and the
/// count of pages stored; reply bytes past those sent stay.
pub fn step(
    session: &mut Session,
    config: &mut Config,
    setup: &[u8],
    data: &[u8],
    flash: &mut [u8],
    eeprom: &mut [u8],
    reply: &mut [u8],
) -> Answer {
    let Some(setup) = Setup::read(setup) else { return Answer::refused(1) };
    let Ok(flash) = flash.try_into() else { return Answer::refused(2) };
    let Ok(eeprom) = eeprom.try_into() else { return Answer::refused(3) };
    if data.len() != setup.data_bytes() {
        return Answer::refused(4);
    }
    let Some(reply) = reply.first_chunk_mut() else { return Answer::refused(5) };
    if !session.is_sound() {
        return Answer::refused(6);
    }
    if session.state == STATE_APPLICATION {
        return Answer::refused(7);
    }
    answer(session, config, &setup, data, &mut Board { flash, eeprom }, reply)
}

/// The request itself. Past refusals 6 and 7, not 10 is "2, 3, 5, 6, 9", and by
/// 02, P5 state 4: there "GETSTATE, GETSTATUS and ABORT work and the rest stalls".
// In line, so that the setup's fields stay in registers.
#[inline(always)]
fn answer(
    session: &mut Session,
    config: &mut Config,
    setup: &Setup,
    data: &[u8],
    board: &mut Board,
    reply: &mut [u8; REPLY_LEAST],
) -> Answer {
    match (setup.kind, setup.request, setup.index, setup.value, setup.length) {
        (TO_DEVICE, DNLOAD, 0, _, _) => download(session, config, data, board),
        (TO_HOST, UPLOAD, 0, _, length) => upload(session, config, length, board, reply),
        (TO_HOST, GETSTATUS, 0, 0, 6) => get_status(session, reply),
        (TO_HOST, GETSTATE, 0, 0, 1) => get_state(session, reply),
        (TO_DEVICE, CLRSTATUS, 0, 0, 0) if session.state == STATE_ERROR => to_idle(session),
        (TO_DEVICE, ABORT, 0, 0, 0) if can_abort(session.state) => abort(session),
        _ => stall(session),
    }
}

/// "state 10, status 0Fh, nothing pending. In state 10 the status there
/// already stays." 02, P5: the busy count "is cleared ... by every stall".
fn stall(session: &mut Session) -> Answer {
    let status = if session.state == STATE_ERROR { session.status } else { STATUS_STALL };
    session.set(STATE_ERROR, status, Pending::Nothing);
    session.busy = 0;
    Answer::empty(Outcome::Stall)
}

/// "A status above is set with state 10 and nothing pending, and nothing else
/// moves": the busy count stays.
fn fail(session: &mut Session, status: u8) -> Answer {
    session.set(STATE_ERROR, status, Pending::Nothing);
    Answer::sent(0)
}

/// "state 2, status 00h, nothing pending". CLRSTATUS does no more: it is not among
/// what clears the busy count.
fn to_idle(session: &mut Session) -> Answer {
    session.set(STATE_IDLE, STATUS_OK, Pending::Nothing);
    if CLRSTATUS_CLEARS {
        session.busy = 0;
    }
    Answer::sent(0)
}

/// "ABORT in 2, 3, 5, 6, 9", and by 02, P5 in 4.
const fn can_abort(state: u8) -> bool {
    state != STATE_ERROR && !(ABORT_STALLS && state == STATE_DOWNLOAD_BUSY)
}

/// 02, P5: the busy count "is cleared ... by every ... ABORT".
fn abort(session: &mut Session) -> Answer {
    session.busy = 0;
    to_idle(session)
}

/// "status, three zero bytes, the state entered, zero". 02, P5: "With a count above
/// 0, the first GETSTATUS in state 3 reports state 4 with ten milliseconds a page
/// ..., and moves there; the next one reports 5 with timeout zero."
fn get_status(session: &mut Session, reply: &mut [u8; REPLY_LEAST]) -> Answer {
    let (state, busy, timeout) = match (session.state, session.busy) {
        (STATE_DOWNLOAD_SYNC, 0) => (STATE_DOWNLOAD_IDLE, 0, 0),
        (STATE_DOWNLOAD_SYNC, busy) => (STATE_DOWNLOAD_BUSY, busy, PAGE_TIME * u32::from(busy)),
        (STATE_DOWNLOAD_BUSY, busy) => {
            (STATE_DOWNLOAD_IDLE, if SECOND_KEEPS { busy } else { 0 }, 0)
        }
        (STATE_MANIFEST_SYNC, busy) => (STATE_IDLE, busy, 0),
        (state, busy) => (state, busy, 0),
    };
    (session.state, session.busy) = (state, busy);
    let [t0, t1, t2] = timeout_bytes(timeout);
    reply[..6].copy_from_slice(&[session.status, t0, t1, t2, state, 0]);
    Answer::sent(6)
}

/// "three timeout bytes, low byte first".
const fn timeout_bytes(milliseconds: u32) -> [u8; 3] {
    let [low, middle, high, _] = milliseconds.to_le_bytes();
    if HIGH_FIRST {
        [high, middle, low]
    } else {
        [low, middle, high]
    }
}

fn get_state(session: &Session, reply: &mut [u8; REPLY_LEAST]) -> Answer {
    reply[0] = session.state;
    Answer::sent(1)
}

/// The data is wLength bytes by refusal 4, so its length stands for wLength.
fn download(session: &mut Session, config: &mut Config, data: &[u8], board: &mut Board) -> Answer {
    match (data.len(), session.state, session.pending) {
        (0, STATE_DOWNLOAD_SYNC | STATE_DOWNLOAD_IDLE, Pending::Start { kind, address }) => {
            session.set(STATE_APPLICATION, session.status, Pending::Nothing);
            Answer::empty(Outcome::Start { kind, address })
        }
        (0, STATE_DOWNLOAD_IDLE, _) => {
            session.set(STATE_MANIFEST_SYNC, session.status, Pending::Nothing);
            Answer::sent(0)
        }
        (1..=DOWNLOAD_MOST, STATE_IDLE | STATE_DOWNLOAD_IDLE, _) => {
            obey(session, config, data, board)
        }
        _ => stall(session),
    }
}

/// "Order: form, level, address ... and for program at last its whole length." 02,
/// P5: "An accepted command, a blank check that gives 05h too, sets" the busy count
/// "to its page count", which is 256 at most.
fn obey(session: &mut Session, config: &mut Config, payload: &[u8], board: &mut Board) -> Answer {
    let Some(command) = form(payload) else {
        return stall(session);
    };
    if let Some(status) = config.level().forbids(&command) {
        return fail(session, status);
    }
    if !command.is_addressed() {
        return fail(session, STATUS_ADDRESS);
    }
    let Some(pages) = store(command, payload, config, board) else {
        return stall(session);
    };
    let pending = to_pend(command, config, board);
    let blank = !matches!(pending, Pending::Blank(_));
    session.set(STATE_DOWNLOAD_SYNC, if blank { STATUS_OK } else { STATUS_NOT_BLANK }, pending);
    if pages > 0 || !BLANK_CHECK_KEEPS {
        session.busy = pages as u16;
    }
    Answer { outcome: Outcome::Done, length: 0, pages }
}

/// Stores what the command stores and gives the pages of it; nothing is
/// stored or given for a program transfer of wrong length.
fn store(
    command: Command,
    payload: &[u8],
    config: &mut Config,
    board: &mut Board,
) -> Option<usize> {
    match command {
        Command::ProgramFlash { start, end } => {
            let bytes = program_data(payload, start.0, end.0)?;
            return Some(program_flash(board.flash, start, bytes));
        }
        Command::ProgramEeprom { start, end } => {
            program_eeprom(board.eeprom, start, program_data(payload, start.0, end.0)?);
        }
        Command::EraseBlock(block) => return Some(board.erase_block(block)),
        Command::EraseAll => {
            config.erase();
            return Some(board.erase_flash());
        }
        Command::WriteByte { index, value } => config.write(index, value),
        Command::WriteHsb(value) => config.write_hsb(value),
        _ => {}
    }
    Some(0)
}

/// "nothing unless it reads or starts", or a blank check meets a byte not FFh.
fn to_pend(command: Command, config: &Config, board: &Board) -> Pending {
    match command {
        Command::Read { memory, start, end } => Pending::Read { memory, start, end },
        Command::BlankCheck { start, end } => {
            board.first_not_blank(start, end).map_or(Pending::Nothing, Pending::Blank)
        }
        Command::StartReset => Pending::Start { kind: StartKind::Reset, address: 0x0000 },
        Command::StartAt(address) => Pending::Start { kind: StartKind::Jump, address },
        Command::ReadVersion => Pending::Byte(VERSION),
        Command::ReadByte(index) => Pending::Byte(config.read(index)),
        Command::ReadHsb => Pending::Byte(config.hsb),
        _ => Pending::Nothing,
    }
}

/// "the smaller of wLength and the rest"; what cannot be sent stalls.
fn upload(
    session: &mut Session,
    config: &Config,
    length: u16,
    board: &Board,
    reply: &mut [u8; REPLY_LEAST],
) -> Answer {
    if !matches!(session.state, STATE_DOWNLOAD_IDLE | STATE_UPLOAD_IDLE) || length == 0 {
        return stall(session);
    }
    let (sent, rest) = match session.pending {
        Pending::Read { memory, start, end } if config.level() != Level::Two => {
            let last = start + (length - 1).min(end - start);
            let bytes = board.bytes(memory, start, last);
            reply[..bytes.len()].copy_from_slice(bytes);
            let rest = Pending::Read { memory, start: last + 1, end };
            (bytes.len(), if last < end { rest } else { Pending::Nothing })
        }
        Pending::Blank(address) => {
            let [high, low] = address.to_be_bytes();
            reply[0] = high;
            if length == 1 {
                (1, Pending::Byte(low))
            } else {
                reply[1] = low;
                (2, Pending::Nothing)
            }
        }
        Pending::Byte(value) => {
            reply[0] = value;
            (1, Pending::Nothing)
        }
        _ => return stall(session),
    };
    let state = if rest == Pending::Nothing { STATE_IDLE } else { STATE_UPLOAD_IDLE };
    session.set(state, STATUS_OK, rest);
    Answer::sent(sent)
}
