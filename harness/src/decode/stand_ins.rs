//! Readers that stand in for the library's, to try the comparison itself: one that is right,
//! and some with one fault each, which the comparison has to see.

use super::calls::{answer, Decode, Decoded};
use super::compare::Run;
use crate::cases::grids::{self, limits, Shot};
use crate::reader::steps::{Steps, STEPS};
use crate::reader::{read, read_by, Reading};
use std::slice;
use std::sync::OnceLock;

/// What a reader is asked for, and the answer that is due.
struct Asked<'a> {
    modules: &'a [u8],
    side: u32,
    message: &'a mut [u8],
    reading: Reading,
    answer: Decoded,
}

/// The answer by the given steps, then a fault.
unsafe fn faulty(
    (grid, grid_length): (*const u8, usize),
    side: u32,
    (message, message_length): (*mut u8, usize),
    steps: &Steps,
    fault: fn(&mut Asked),
) -> Decoded {
    let modules = unsafe { slice::from_raw_parts(grid, grid_length) };
    let message = unsafe { slice::from_raw_parts_mut(message, message_length) };
    let reading = read_by(steps, modules, side);
    let answer = answer(&reading, message.len());
    if let (0, Ok(read)) = (answer.number, &reading) {
        message[..read.message.len()].copy_from_slice(&read.message);
    }
    let mut asked = Asked {
        modules,
        side,
        message,
        reading,
        answer,
    };
    fault(&mut asked);
    asked.answer
}

/// A reader with a fault, as the library would export it.
macro_rules! reader {
    ($name:ident, $steps:expr, $fault:expr) => {
        unsafe extern "C" fn $name(
            grid: *const u8,
            grid_length: usize,
            side: u32,
            message: *mut u8,
            message_length: usize,
        ) -> Decoded {
            let lent = (message, message_length);
            unsafe { faulty((grid, grid_length), side, lent, &$steps, $fault) }
        }
    };
}

reader!(right, STEPS, |_| {});

// Below the macros, which they use.
mod answers;
mod steps;

/// The grids, and what is due for each, found once for all readers.
fn shots() -> &'static [(Shot, Reading)] {
    static SHOTS: OnceLock<Vec<(Shot, Reading)>> = OnceLock::new();
    SHOTS.get_or_init(|| {
        let mut list = Vec::new();
        let mut take = |shot: Shot| {
            // The largest take long, and are the same to each of these faults.
            if shot.modules.len() <= 61 * 61 {
                let reading = read(&shot.modules, shot.side);
                list.push((shot, reading));
            }
        };
        grids::all(1, 1_000, &mut take);
        limits::all(1, 66, &mut take);
        list
    })
}

/// What a reader does wrong, and the reader.
type Faulty = (&'static str, Decode);

/// Goes on to the first failure.
fn fails(decode: Decode) -> bool {
    let mut run = Run::new(decode);
    let failed = |(shot, reading): &(Shot, Reading)| {
        run.judged(shot, reading);
        run.tally.failed > 0
    };
    shots().iter().any(failed)
}

#[test]
fn a_right_reader_passes() {
    assert!(!fails(right));
}

#[test]
fn each_fault_is_seen() {
    for (what, decode) in steps::ALL.into_iter().chain(answers::ALL) {
        assert!(fails(decode), "{what} went unseen");
    }
}
