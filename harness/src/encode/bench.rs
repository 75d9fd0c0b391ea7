//! Times of the library's maker: one tag of the bench, the fullest symbols, and every shape.

use super::calls::{encoded, with_library, Due, Encode};
use crate::cases::kinds::mixed;
use crate::cases::timed::longest;
use crate::symbol::shape;
use crate::times::Times;
use std::hint::black_box;
use std::process::ExitCode;

pub fn run() -> ExitCode {
    with_library(|encode| {
        let mut right = row(encode, "POT 0412", b"POT 0412", 23);
        let digits = longest(&[b'7'; 5_000], 5, 36);
        right &= row(encode, "the most digits there can be", digits, 5);
        let bytes = longest(&[200; 5_000], 5, 36);
        right &= row(encode, "the longest run of bytes that no set has", bytes, 5);
        let text = mixed(5_000);
        for shape in shape::listed() {
            let message = longest(&text, 23, shape.number());
            right &= row(encode, "mixed text", message, 23);
        }
        if !right {
            println!("an answer of the library was not as due");
        }
        ExitCode::from(u8::from(!right))
    })
}

/// Prints two lines; whether the answers were right.
fn row(encode: Encode, title: &str, message: &[u8], percent: u32) -> bool {
    let due = Due::of(message, percent);
    let answer = due.answer(usize::MAX);
    let mut grid = vec![0; due.modules.len()];
    let mut right = true;
    let times =
        Times::of(|| right &= encoded(encode, black_box(message), percent, &mut grid) == answer);
    right &= grid == due.modules;
    let name = shape::every()
        .find(|shape| shape.number() == answer.shape as usize)
        .map_or(String::new(), |shape| shape.name());
    let (len, data, checks) = (message.len(), answer.data_words, answer.check_words);
    println!("{title}: {len} bytes, {percent} percent, {name}, D {data}, K {checks}");
    println!("  {}", times.told("a symbol"));
    right
}
