//! Files and the standard streams.

use crate::failure::Failure;
use std::fs::File;
use std::io::{self, Read, Write};

/// The longest input that is taken, in bytes.
const MOST_BYTES: u64 = 1 << 24;

/// What was read, and the name by which it is spoken of.
#[derive(Debug)]
pub struct Input {
    pub name: String,
    pub bytes: Vec<u8>,
}

/// Reads a file, or standard input where the name is `-`.
pub fn read(name: &str) -> Result<Input, Failure> {
    let shown = if name == "-" { "standard input" } else { name };
    let failed = |error: io::Error| Failure::of_file(shown, &format!("cannot be read: {error}"));
    let mut bytes = Vec::new();
    let limit = MOST_BYTES + 1;
    if name == "-" {
        io::stdin().take(limit).read_to_end(&mut bytes)
    } else {
        let file = File::open(name).map_err(failed)?;
        file.take(limit).read_to_end(&mut bytes)
    }
    .map_err(failed)?;
    if bytes.len() as u64 > MOST_BYTES {
        return Err(Failure::of_file(shown, "it has more than 16 MiB"));
    }
    Ok(Input {
        name: shown.to_owned(),
        bytes,
    })
}

/// Writes a file anew.
pub fn write(name: &str, bytes: &[u8]) -> Result<(), Failure> {
    std::fs::write(name, bytes)
        .map_err(|error| Failure::of_file(name, &format!("cannot be written: {error}")))
}

/// Writes to standard output. A reader that has gone is no fault.
pub fn print(bytes: &[u8]) -> Result<(), Failure> {
    let mut out = io::stdout().lock();
    match out.write_all(bytes).and_then(|()| out.flush()) {
        Err(error) if error.kind() != io::ErrorKind::BrokenPipe => Err(Failure::of_file(
            "standard output",
            &format!("cannot be written: {error}"),
        )),
        _ => Ok(()),
    }
}

/// Writes a line to standard error, where that can be.
pub fn complain(line: &str) {
    let _ = writeln!(io::stderr(), "{line}");
}
