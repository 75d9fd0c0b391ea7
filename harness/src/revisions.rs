//! This tree's library beside another revision's, in one process: times in turns, and every
//! answer of the one held to the other's.
//!
//! `scripts/compare_revisions.py REV` builds the other archive, puts `before_` in front of its
//! names, and runs `harness bench-revisions`.

mod blocks;
mod refused;
mod symbols;
mod table;
mod turns;

use self::table::Table;
use self::turns::Both;
use crate::decode::calls::{self as reader, Decode, Decoded};
use crate::encode::calls::{self as maker, Encode, Encoded};
use crate::guard::{self, Correct};
use crate::times::RUNS;
use std::process::ExitCode;

/// One revision's three functions.
pub struct Library {
    pub correct: Correct,
    pub encode: Encode,
    pub decode: Decode,
}

// This tree's interface, whatever the other revision's is. An older one that knows fewer last
// parameters doesn't look at them, and one whose answer has fewer last fields leaves them as they
// were: the caller makes room for both, and clears both away (System V ABI, x86-64).
extern "C" {
    #[allow(clippy::too_many_arguments)]
    fn before_aztec_correct(
        word_size: u32,
        check_words: usize,
        received: *const u16,
        received_len: usize,
        marks: *const u8,
        marks_len: usize,
        corrected: *mut u16,
        corrected_len: usize,
    ) -> u32;
    fn before_aztec_encode(
        message: *const u8,
        message_length: usize,
        percent: u32,
        grid: *mut u8,
        grid_length: usize,
    ) -> Encoded;
    fn before_aztec_decode(
        grid: *const u8,
        grid_length: usize,
        side: u32,
        message: *mut u8,
        message_length: usize,
    ) -> Decoded;
}

const BEFORE: Library = Library {
    correct: before_aztec_correct,
    encode: before_aztec_encode,
    decode: before_aztec_decode,
};

pub fn run() -> ExitCode {
    maker::with_library(|encode| {
        reader::with_library(|decode| {
            let correct = guard::LIBRARY;
            let now = Library {
                correct,
                encode,
                decode,
            };
            compared(&Both {
                before: BEFORE,
                now,
            })
        })
    })
}

fn compared(both: &Both) -> ExitCode {
    println!("Fastest to slowest of {RUNS} runs, which take turns.");
    println!("now/before and now/libfec: of the fastest; median: of the turns' now/before.");
    let mut table = Table::default();
    blocks::all(both, &mut table);
    symbols::read(both, &mut table);
    symbols::refused(both, &mut table);
    symbols::made(both, &mut table);
    ExitCode::from(u8::from(!table.ended()))
}
