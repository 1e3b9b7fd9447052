//! The session record.

use crate::board::{Memory, FLASH_LAST};

/// The application runs.
pub const STATE_APPLICATION: u8 = 0;
/// Waiting for requests.
pub const STATE_IDLE: u8 = 2;
/// A command was taken, its status not yet asked for.
pub const STATE_DOWNLOAD_SYNC: u8 = 3;
/// "the board still burns pages" (02, P5), its status asked for once.
pub const STATE_DOWNLOAD_BUSY: u8 = 4;
/// Expecting the next download, or an upload.
pub const STATE_DOWNLOAD_IDLE: u8 = 5;
/// The empty download was taken.
pub const STATE_MANIFEST_SYNC: u8 = 6;
/// An upload was begun and more remains.
pub const STATE_UPLOAD_IDLE: u8 = 9;
/// An error waits for CLRSTATUS.
pub const STATE_ERROR: u8 = 10;

/// No error.
pub const STATUS_OK: u8 = 0x00;
/// "a byte not FFh sets 05h".
pub const STATUS_NOT_BLANK: u8 = 0x05;
/// The address status.
pub const STATUS_ADDRESS: u8 = 0x08;
/// The status of a stall, and the highest that there is.
pub const STATUS_STALL: u8 = 0x0F;

/// Refusal 6 by 02, P5: "a busy count above 256".
pub const BUSY_MOST: u16 = 256;

/// How the application is started.
#[derive(Clone, Copy, Debug, PartialEq, Eq)]
pub enum StartKind {
    /// By a reset.
    Reset,
    /// By a jump to an address.
    Jump,
}

/// "what is pending".
#[derive(Clone, Copy, Debug, PartialEq, Eq)]
pub enum Pending {
    /// Nothing.
    Nothing,
    /// "a memory read with its range", both ends included.
    Read {
        /// The memory that is read.
        memory: Memory,
        /// The next byte to send.
        start: u16,
        /// The last byte to send.
        end: u16,
    },
    /// "a blank report with its address".
    Blank(u16),
    /// "one byte, its value fixed when the command is accepted".
    Byte(u8),
    /// "a start with its kind and address, 0000h for a reset".
    Start {
        /// How to start.
        kind: StartKind,
        /// Where to start.
        address: u16,
    },
}

/// The one session record; it may hold any numbers, hence refusal 6.
#[derive(Clone, Copy, Debug, PartialEq, Eq)]
pub struct Session {
    /// The DFU state.
    pub state: u8,
    /// The DFU status.
    pub status: u8,
    /// What the next requests may send or start.
    pub pending: Pending,
    /// The "busy page count" of 02, P5.
    pub busy: u16,
}

impl Session {
    /// The record after power-up.
    pub const POWERED: Session =
        Session { state: STATE_IDLE, status: STATUS_OK, pending: Pending::Nothing, busy: 0 };

    /// Whether refusal 6 has no cause.
    pub(crate) const fn is_sound(&self) -> bool {
        let pending = match self.pending {
            Pending::Nothing | Pending::Byte(_) => true,
            Pending::Read { memory, start, end } => memory.holds_transfer(start, end),
            Pending::Blank(address) | Pending::Start { address, .. } => address <= FLASH_LAST,
        };
        matches!(self.state, 0 | 2 | 3 | 4 | 5 | 6 | 9 | 10)
            && self.status <= STATUS_STALL
            && pending
            && self.busy <= BUSY_MOST
    }

    /// Sets all but the busy count, which only what P5 names sets or clears.
    pub(crate) fn set(&mut self, state: u8, status: u8, pending: Pending) {
        *self = Session { state, status, pending, ..*self };
    }
}

/// "Power-up sets state 2, status 00h, nothing pending, and keeps the rest." By
/// 02, P5 it clears the busy count too.
pub fn power_up(session: &mut Session) {
    *session = Session::POWERED;
}
