//! The device side of the AT89C5131A USB bootloader in DFU mode, the host's
//! command writer and the bench program, written from the scope papers alone
//! to be compared, input by input, with the first program. [`serial`] is the
//! loader of the older boards, the AT89C51SND1.

#![forbid(unsafe_code)]
#![warn(missing_docs)]

pub mod bench;
pub mod board;
pub mod command;
pub mod config;
mod hex;
pub mod job;
pub mod request;
pub mod serial;
pub mod session;

pub use bench::run;
pub use board::{Block, EepromAddress, FlashAddress, Memory};
pub use command::{padding, read_command, write_command, Command, Reading};
pub use config::{Config, Level};
pub use job::{count, requests, verdict, Request};
pub use request::{step, Answer, Outcome};
pub use session::{power_up, Pending, Session, StartKind};
