//! The time of the print run's program on 100,000 records.

use super::folder::Folder;
use super::listing;
use crate::cases::records;
use crate::random::Random;
use std::fs::{self, File};
use std::io;
use std::path::Path;
use std::process::{Command, ExitCode, Stdio};
use std::time::Instant;

const RUNS: usize = 11;
const RECORDS: usize = 100_000;

pub fn run(program: &str) -> ExitCode {
    match measured(program) {
        Ok(true) => ExitCode::SUCCESS,
        Ok(false) => {
            println!("the listing was not as due");
            ExitCode::FAILURE
        }
        Err(fault) => {
            eprintln!("{program}: {fault}");
            ExitCode::from(2)
        }
    }
}

/// Prints one row; whether every listing was as due.
fn measured(program: &str) -> io::Result<bool> {
    let folder = Folder::new("harness-bench-listing")?;
    let mut random = Random::new(32);
    let records: Vec<u8> = (0..RECORDS)
        .flat_map(|i| records::good(&mut random, i))
        .collect();
    let due = listing(&records);
    let (input, output) = (folder.write("run", &records)?, folder.path("listing"));
    let mut times = Vec::new();
    let mut right = true;
    for _ in 0..RUNS {
        times.push(timed(program, &input, &output)?);
        right &= fs::read(&output)? == due.as_bytes();
    }
    let fast = times.iter().copied().fold(f64::INFINITY, f64::min);
    let slow = times.iter().copied().fold(0.0, f64::max);
    println!("{RECORDS} lawful records, listing to a file");
    println!("  fastest {fast:.3}, slowest {slow:.3} s ({RUNS} runs)");
    Ok(right)
}

/// Seconds from the program's start to its end.
fn timed(program: &str, input: &Path, output: &Path) -> io::Result<f64> {
    let output = File::create(output)?;
    let start = Instant::now();
    let status = Command::new(program)
        .arg(input)
        .stdin(Stdio::null())
        .stdout(output)
        .status()?;
    let seconds = start.elapsed().as_secs_f64();
    if !status.success() {
        return Err(io::Error::other(format!("ended with {status}")));
    }
    Ok(seconds)
}
