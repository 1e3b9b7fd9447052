//! The bench program: a job file against a delivered board.

use crate::board::{EEPROM_SIZE, FLASH_SIZE};
use crate::config::Config;
use crate::hex::{digit, pair};
use crate::job::{requests, survey};
use crate::request::{step, Answer, Outcome, REPLY_LEAST};
use crate::session::Session;

/// Appends what the bench program writes for this job file: the refusal, or
/// `job N` and a line for each request.
pub fn run(file: &[u8], out: &mut Vec<u8>) {
    match survey(file) {
        Ok(found) => run_accepted(file, found, out),
        Err((number, at)) => {
            out.extend_from_slice(b"refused ");
            push_decimal(out, usize::from(number));
            out.extend_from_slice(b" at ");
            push_decimal(out, at);
            out.push(b'\n');
        }
    }
}

/// "starts from a delivered board, all memory FFh".
fn run_accepted(file: &[u8], found: usize, out: &mut Vec<u8>) {
    out.reserve(32 * (found + 1));
    out.extend_from_slice(b"job ");
    push_decimal(out, found);
    out.push(b'\n');
    if found == 0 {
        return;
    }
    let mut session = Session::POWERED;
    let mut config = Config::DELIVERED;
    let mut flash = [0xFF; FLASH_SIZE];
    let mut eeprom = [0xFF; EEPROM_SIZE];
    let mut reply = [0; REPLY_LEAST];
    for (before, request) in requests(file).enumerate() {
        let answer = step(
            &mut session,
            &mut config,
            request.setup,
            request.data,
            &mut flash,
            &mut eeprom,
            &mut reply,
        );
        push_line(out, before + 1, &answer, &session, &reply[..answer.length]);
    }
}

/// "number from 1", outcome, state, status, pages, reply.
fn push_line(out: &mut Vec<u8>, number: usize, answer: &Answer, session: &Session, reply: &[u8]) {
    push_decimal(out, number);
    match answer.outcome {
        Outcome::Done => out.extend_from_slice(b" done "),
        Outcome::Stall => out.extend_from_slice(b" stall "),
        Outcome::Start { .. } => out.extend_from_slice(b" start "),
        Outcome::Refused(number) => {
            out.extend_from_slice(b" ref");
            push_decimal(out, usize::from(number));
            out.push(b' ');
        }
    }
    push_decimal(out, usize::from(session.state));
    out.extend_from_slice(&[b' ', digit(session.status >> 4), digit(session.status & 0xF), b' ']);
    push_decimal(out, answer.pages);
    out.push(b' ');
    if reply.is_empty() {
        out.push(b'-');
    } else {
        push_hex(out, reply);
    }
    out.push(b'\n');
}

fn push_decimal(out: &mut Vec<u8>, mut number: usize) {
    if number < 10 {
        return out.push(b'0' + number as u8);
    }
    let mut digits = [0; 20];
    let mut first = digits.len();
    while number > 0 {
        first -= 1;
        digits[first] = b'0' + (number % 10) as u8;
        number /= 10;
    }
    out.extend_from_slice(&digits[first..]);
}

fn push_hex(out: &mut Vec<u8>, bytes: &[u8]) {
    let from = out.len();
    out.resize(from + 2 * bytes.len(), 0);
    for (digits, &byte) in out[from..].as_chunks_mut::<2>().0.iter_mut().zip(bytes) {
        *digits = pair(byte);
    }
}
