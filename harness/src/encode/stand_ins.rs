//! Makers that stand in for the library's, to try the comparison itself: one that is right,
//! and some with one fault each, which the comparison has to see.

use super::calls::{Due, Encode, Encoded};
use super::compare::Run;
use crate::cases::tags;
use std::slice;

/// What a maker is asked for, and the answer that is due.
struct Asked<'a> {
    message: &'a [u8],
    percent: u32,
    grid: &'a mut [u8],
    answer: Encoded,
}

/// The right answer, then a fault.
unsafe fn faulty(
    (message, message_length): (*const u8, usize),
    percent: u32,
    (grid, grid_length): (*mut u8, usize),
    fault: fn(&mut Asked),
) -> Encoded {
    let message = unsafe { slice::from_raw_parts(message, message_length) };
    let grid = unsafe { slice::from_raw_parts_mut(grid, grid_length) };
    let due = Due::of(message, percent);
    let answer = due.answer(grid_length);
    if answer.number == 0 {
        grid[..due.modules.len()].copy_from_slice(&due.modules);
    }
    let mut asked = Asked {
        message,
        percent,
        grid,
        answer,
    };
    fault(&mut asked);
    asked.answer
}

/// A maker with a fault, as the library would export it.
macro_rules! maker {
    ($name:ident, $fault:expr) => {
        unsafe extern "C" fn $name(
            message: *const u8,
            message_length: usize,
            percent: u32,
            grid: *mut u8,
            grid_length: usize,
        ) -> Encoded {
            unsafe {
                faulty(
                    (message, message_length),
                    percent,
                    (grid, grid_length),
                    $fault,
                )
            }
        }
    };
}

/// The last module of a made symbol.
fn last(asked: &Asked) -> usize {
    (asked.answer.side as usize).pow(2) - 1
}

maker!(right, |_| {});
maker!(zero_shape_kept, |asked| {
    if asked.answer.number == 4 {
        asked.answer.side = 15;
    }
});
maker!(two_before_one, |asked| {
    if asked.message.is_empty() && asked.percent == u32::MAX {
        asked.answer.number = 2;
    }
});
maker!(three_before_two, |asked| {
    if asked.message.len() > 4_992 && asked.answer.number == 2 {
        asked.answer.number = 3;
    }
});
maker!(four_before_three, |asked| {
    if asked.answer.number == 3 && asked.grid.is_empty() {
        asked.answer.number = 4;
    }
});
maker!(touched_on_refusal, |asked| {
    if asked.answer.number == 3 {
        if let Some(byte) = asked.grid.last_mut() {
            *byte ^= 1;
        }
    }
});
maker!(one_module_turned, |asked| {
    if asked.answer.shape == 36 {
        let place = last(asked);
        asked.grid[place] ^= 1;
    }
});
maker!(rest_cleared, |asked| {
    let end = last(asked) + 1;
    if asked.answer.number == 0 && asked.grid.len() > end {
        asked.grid[end] = 0;
    }
});
maker!(beside_the_grid, |asked| {
    if asked.answer.shape == 20 {
        let place = asked.grid.len();
        // One byte behind what was lent, as a careless maker would write it.
        *asked.grid.as_mut_ptr().add(place) ^= 0xFF;
    }
});
maker!(words_exchanged, |asked| {
    if asked.answer.shape == 4 && asked.answer.data_words == 64 {
        asked.answer.check_words += 1;
    }
});

/// Goes on to the first failure.
fn fails(encode: Encode) -> bool {
    let mut run = Run::new(encode);
    tags::all(1, 50, &mut |tag| {
        if run.tally.failed == 0 {
            run.tag(&tag);
        }
    });
    run.tally.failed > 0
}

#[test]
fn a_right_maker_passes() {
    let mut run = Run::new(right);
    run.all(1, 50);
    assert_eq!(run.tally.failed, 0);
}

#[test]
fn each_fault_is_seen() {
    let faulty: [(&str, Encode); 9] = [
        ("a field kept with 4", zero_shape_kept),
        ("2 before 1", two_before_one),
        ("3 before 2", three_before_two),
        ("4 before 3", four_before_three),
        ("a buffer touched by a refusal", touched_on_refusal),
        ("one module", one_module_turned),
        ("the rest of the buffer", rest_cleared),
        ("what lies beside the buffer", beside_the_grid),
        ("K of a full C4", words_exchanged),
    ];
    for (what, encode) in faulty {
        assert!(fails(encode), "{what} went unseen");
    }
}
