//! Runs the print run's program on every file, in three ways, and counts.

use super::folder::Folder;
use super::listing;
use super::program::{run as run_program, Input, Outcome};
use crate::cases::records::{self, Run, PRINTED};
use crate::compare::Tally;
use std::io;
use std::process::ExitCode;

/// Bytes of the standard error told.
const TOLD: usize = 200;

pub fn run(program: &str, seed: u64, count: usize) -> ExitCode {
    let mut tally = Tally::default();
    if listing(&records::printed()) != PRINTED {
        tally.fail("the harness itself: the printed listing");
    }
    match compare(program, seed, count, &mut tally) {
        Ok(()) => tally.report(seed),
        Err(fault) => {
            eprintln!("{program}: {fault}");
            tally.fail("the program could not be run");
            tally.report(seed)
        }
    }
}

fn compare(program: &str, seed: u64, count: usize, tally: &mut Tally) -> io::Result<()> {
    let folder = Folder::new("harness-listing")?;
    missing(program, &folder, tally)?;
    let mut outcome = Ok(());
    records::all(seed, count, &mut |run| {
        if outcome.is_ok() {
            outcome = file(program, &folder, &run, tally);
        }
    });
    outcome
}

/// The same file as an argument, as standard input and through a pipe. Each is a case.
fn file(program: &str, folder: &Folder, run: &Run, tally: &mut Tally) -> io::Result<()> {
    let path = folder.write("run", &run.bytes)?;
    let due = listing(&run.bytes);
    let ways = [
        ("as an argument", Input::Argument(&path)),
        ("as standard input", Input::File(&path)),
        ("through a pipe", Input::Pipe(&run.bytes, tally.passed)),
    ];
    for (way, input) in ways {
        let list = differences(&run_program(program, input)?, &due);
        tally.count(run.label, 0, list, || {
            format!("{}, {} bytes {way}", run.label, run.bytes.len())
        });
    }
    Ok(())
}

fn differences(got: &Outcome, due: &str) -> Vec<String> {
    let mut list = Vec::new();
    if got.code != Some(0) {
        list.push(format!("ended with {:?}, {}", got.code, told(&got.stderr)));
    }
    if got.stdout != due.as_bytes() {
        list.push(unlike(&got.stdout, due));
    }
    list
}

/// The first line that is not as due.
fn unlike(got: &[u8], due: &str) -> String {
    let got_lines = got.split_inclusive(|&byte| byte == b'\n');
    let due_lines = due.as_bytes().split_inclusive(|&byte| byte == b'\n');
    let same = got_lines.clone().zip(due_lines.clone());
    let place = same.take_while(|(got, due)| got == due).count();
    let [got, due] = [got_lines.clone().nth(place), due_lines.clone().nth(place)]
        .map(|line| line.unwrap_or_default().escape_ascii().to_string());
    format!("line {}: \"{got}\", due \"{due}\"", place + 1)
}

fn told(stderr: &[u8]) -> String {
    let start = &stderr[..stderr.len().min(TOLD)];
    format!("standard error \"{}\"", start.escape_ascii())
}

/// A file that isn't there: something on standard error and nothing on standard output. The exit
/// status isn't judged: a Rattle program has none of its own.
fn missing(program: &str, folder: &Folder, tally: &mut Tally) -> io::Result<()> {
    let path = folder.path("missing");
    let got = run_program(program, Input::Argument(&path))?;
    let mut list = Vec::new();
    if got.stderr.is_empty() {
        list.push("nothing on standard error".into());
    }
    if !got.stdout.is_empty() {
        list.push("something on standard output".into());
    }
    let label = "a missing file";
    tally.count(label, 0, list, || label.into());
    Ok(())
}
