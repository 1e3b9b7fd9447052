//! A file of records on standard input, one a line, and each answer of the serial
//! loader on standard output. The form of the file and of what is printed is the
//! bench's own, and stands in no paper: jobs/serial/README.md has it.

use second::serial::{delivered, step, Config, Outcome};
use std::io::{self, Read, Write};

/// A longer file is refused with 16.
const FILE_MOST: usize = 1_048_576;
const FLASH_SIZE: usize = 65_536;
/// More than a display of all flash takes.
const ROOM_SIZE: usize = 163_840;

fn main() -> io::Result<()> {
    let mut file = Vec::new();
    io::stdin().lock().read_to_end(&mut file)?;
    let mut report = Vec::new();
    run(&file, &mut report)?;
    let mut out = io::stdout().lock();
    out.write_all(&report)?;
    out.flush()
}

/// Every line without its end: CR LF, LF, or nothing at the end of the file.
fn lines(file: &[u8]) -> impl Iterator<Item = &[u8]> {
    file.split_inclusive(|&byte| byte == b'\n').map(|line| {
        let feed = line.strip_suffix(b"\n");
        feed.map_or(line, |line| line.strip_suffix(b"\r").unwrap_or(line))
    })
}

fn run(file: &[u8], out: &mut impl Write) -> io::Result<()> {
    if file.len() > FILE_MOST {
        return writeln!(out, "refused 16 at 0");
    }
    let records: Vec<_> =
        lines(file).filter(|line| !line.is_empty() && !line.starts_with(b"#")).collect();
    writeln!(out, "records {}", records.len())?;
    let erased = lines(file).next() == Some(b"#erased");
    let mut config = if erased { Config { ssb: 0xFF, ..delivered() } } else { delivered() };
    let (mut flash, mut room) = (vec![0xFF; FLASH_SIZE], vec![0; ROOM_SIZE]);
    for (number, record) in (1..).zip(records) {
        let answer = step(config, record, &mut flash, &mut room);
        config = answer.config;
        match answer.outcome {
            Outcome::Answered => {
                write!(out, "{number} answered {} ", answer.pages)?;
                out.write_all(&room[..answer.length])?;
            }
            Outcome::StartReset => writeln!(out, "{number} reset {} -", answer.pages)?,
            Outcome::StartAt(at) => writeln!(out, "{number} start {} {at:04X}", answer.pages)?,
            Outcome::Refused(with) => writeln!(out, "{number} ref{with} {} -", answer.pages)?,
        }
    }
    Ok(())
}
