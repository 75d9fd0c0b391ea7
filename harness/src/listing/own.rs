//! The harness's own listing as a program, to set beside another's by hand.

use super::listing;
use std::fs;
use std::io::{self, Read, Write};
use std::process::ExitCode;

/// Lists a file, or standard input.
pub fn run(file: Option<&str>) -> ExitCode {
    let listed = bytes(file).and_then(|bytes| io::stdout().write_all(listing(&bytes).as_bytes()));
    match listed {
        Ok(()) => ExitCode::SUCCESS,
        Err(fault) => {
            eprintln!("{}: {fault}", file.unwrap_or("standard input"));
            ExitCode::FAILURE
        }
    }
}

fn bytes(file: Option<&str>) -> io::Result<Vec<u8>> {
    let Some(path) = file else {
        let mut bytes = Vec::new();
        io::stdin().read_to_end(&mut bytes)?;
        return Ok(bytes);
    };
    fs::read(path)
}
