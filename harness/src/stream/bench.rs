//! Times of the stream's calls on 3,000 characters of mixed text.

use super::calls::{judge, message, write, Judged};
use super::{words_of, SIZES};
use crate::cases::kinds::mixed;
use std::hint::black_box;
use std::process::ExitCode;
use std::time::Instant;

const RUNS: usize = 11;
const ROUNDS: usize = 20;
const CHARACTERS: usize = 3_000;

pub fn run() -> ExitCode {
    let text = mixed(CHARACTERS);
    let mut right = true;
    for size in SIZES {
        println!("{CHARACTERS} characters of mixed text, B {size}");
        right &= measured(&text, size);
    }
    if !right {
        println!("an answer of the library was not as due");
    }
    ExitCode::from(u8::from(!right))
}

/// Prints two rows; whether words and message came out as due.
fn measured(text: &[u8], size: u32) -> bool {
    let due = words_of(text, size);
    let mut words = vec![0; due.len()];
    let mut back = vec![0; text.len()];
    let (mut encoding, mut reading) = (Vec::new(), Vec::new());
    let mut right = true;
    for _ in 0..RUNS {
        let start = Instant::now();
        for _ in 0..ROUNDS {
            right &= write(black_box(text), size, black_box(&mut words)) == due.len();
        }
        encoding.push(start.elapsed().as_secs_f64());
        right &= words == due;
        let whole = Judged {
            number: 0,
            value: text.len(),
        };
        let start = Instant::now();
        for _ in 0..ROUNDS {
            // The message may only be asked for where it was judged to be there.
            if judge(black_box(&due), size) != whole {
                return false;
            }
            message(black_box(&due), size, black_box(&mut back));
        }
        reading.push(start.elapsed().as_secs_f64());
        right &= back == text;
    }
    printed("encoding", &encoding);
    printed("reading ", &reading);
    right
}

fn printed(name: &str, seconds: &[f64]) {
    let each = 1e9 / (ROUNDS * CHARACTERS) as f64;
    let fast = seconds.iter().copied().fold(f64::INFINITY, f64::min) * each;
    let slow = seconds.iter().copied().fold(0.0, f64::max) * each;
    println!("  {name}  fastest {fast:.2}, slowest {slow:.2} ns a character ({RUNS} runs)");
}
