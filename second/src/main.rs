//! The bench program: a job file on standard input, its report on standard output.

use std::io::{self, Read, Write};

fn main() -> io::Result<()> {
    let mut file = Vec::with_capacity(second::job::FILE_MOST + 1);
    io::stdin().lock().read_to_end(&mut file)?;
    let mut report = Vec::new();
    second::run(&file, &mut report);
    let mut out = io::stdout().lock();
    out.write_all(&report)?;
    out.flush()
}
