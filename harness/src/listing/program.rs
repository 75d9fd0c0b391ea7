//! Runs the program under test on one input and takes all that it gives.

use std::fs::File;
use std::io::{self, Read, Write};
use std::path::Path;
use std::process::{Child, ChildStdin, Command, Stdio};
use std::sync::mpsc;
use std::thread;
use std::time::Duration;

/// A program that takes longer is ended, and the comparison with it.
const PATIENCE: Duration = Duration::from_secs(60);

/// Sizes of the parts in which a pipe delivers, taken in turn.
const PARTS: [usize; 10] = [1, 31, 33, 7, 4_097, 64, 4_095, 3, 65_537, 5_000];

/// Files up to this length are fed with a pause after each part, so that each part is a
/// reading of its own.
const SLOW: usize = 3_000;

#[derive(Clone, Copy)]
pub enum Input<'a> {
    /// The file named by the one argument.
    Argument(&'a Path),
    /// The file as standard input.
    File(&'a Path),
    /// Bytes through a pipe, in parts that start at a place of `PARTS`.
    Pipe(&'a [u8], usize),
}

pub struct Outcome {
    pub stdout: Vec<u8>,
    pub stderr: Vec<u8>,
    /// None for a program that was ended by a signal.
    pub code: Option<i32>,
}

pub fn run(program: &str, input: Input) -> io::Result<Outcome> {
    let mut command = Command::new(program);
    match input {
        Input::Argument(path) => command.arg(path).stdin(Stdio::null()),
        Input::File(path) => command.stdin(File::open(path)?),
        Input::Pipe(..) => command.stdin(Stdio::piped()),
    };
    command.stdout(Stdio::piped()).stderr(Stdio::piped());
    outcome(command.spawn()?, input)
}

/// All three pipes are served at once, so that none holds up another.
fn outcome(mut child: Child, input: Input) -> io::Result<Outcome> {
    let (stdin, stdout, stderr) = (child.stdin.take(), child.stdout.take(), child.stderr.take());
    thread::scope(|scope| {
        if let (Some(pipe), Input::Pipe(bytes, turn)) = (stdin, input) {
            scope.spawn(move || feed(pipe, bytes, turn));
        }
        let (sender, ended) = mpsc::channel();
        let stdout = scope.spawn(move || {
            let bytes = whole(stdout);
            // Nobody waits any more where the program was ended.
            let _ = sender.send(());
            bytes
        });
        let stderr = scope.spawn(move || whole(stderr));
        if ended.recv_timeout(PATIENCE).is_err() {
            child.kill()?;
            child.wait()?;
            return Err(io::Error::new(io::ErrorKind::TimedOut, "stuck, and ended"));
        }
        let code = child.wait()?.code();
        let taken = |bytes: thread::Result<io::Result<Vec<u8>>>| bytes.expect("the thread ends");
        Ok(Outcome {
            stdout: taken(stdout.join())?,
            stderr: taken(stderr.join())?,
            code,
        })
    })
}

fn whole(pipe: Option<impl Read>) -> io::Result<Vec<u8>> {
    let mut bytes = Vec::new();
    if let Some(mut pipe) = pipe {
        pipe.read_to_end(&mut bytes)?;
    }
    Ok(bytes)
}

/// Writes all parts. A program that doesn't take them all is judged by what it prints.
fn feed(mut pipe: ChildStdin, bytes: &[u8], turn: usize) {
    let mut rest = bytes;
    for &size in PARTS.iter().cycle().skip(turn % PARTS.len()) {
        let (part, after) = rest.split_at(size.min(rest.len()));
        if part.is_empty() || pipe.write_all(part).is_err() {
            return;
        }
        rest = after;
        if bytes.len() <= SLOW {
            thread::sleep(Duration::from_micros(300));
        }
    }
}
