//! `aztec_encode`, with both lent buffers inside larger ones.

use crate::guard::{mark_pattern, Guarded};
use crate::symbol::{fit, Fit};
use std::process::ExitCode;

#[repr(C)]
#[derive(Clone, Copy, PartialEq, Debug, Default)]
pub struct Encoded {
    pub number: u32,
    pub shape: u32,
    pub side: u32,
    pub data_words: u32,
    pub check_words: u32,
}

/// A maker under test: message and its length, percentage, grid buffer and its length.
pub type Encode = unsafe extern "C" fn(*const u8, usize, u32, *mut u8, usize) -> Encoded;

#[cfg(aztec_encode)]
extern "C" {
    fn aztec_encode(
        message: *const u8,
        message_length: usize,
        percent: u32,
        grid: *mut u8,
        grid_length: usize,
    ) -> Encoded;
}

/// The library's maker, where the archive had one when the harness was built.
pub fn library() -> Option<Encode> {
    #[cfg(aztec_encode)]
    let found = Some(aztec_encode as Encode);
    #[cfg(not(aztec_encode))]
    let found = None;
    found
}

/// Hands the library's maker to a command; where there is none, says so and ends with 2.
pub fn with_library(command: impl FnOnce(Encode) -> ExitCode) -> ExitCode {
    let Some(encode) = library() else {
        eprintln!("built without aztec_encode: libaztec_c.a doesn't define it");
        return ExitCode::from(2);
    };
    command(encode)
}

/// The bare call.
pub fn encoded(encode: Encode, message: &[u8], percent: u32, grid: &mut [u8]) -> Encoded {
    let (from, to) = (message.as_ptr(), grid.as_mut_ptr());
    // Both slices are alive and apart for the length of the call.
    unsafe { encode(from, message.len(), percent, to, grid.len()) }
}

impl From<&Fit> for Encoded {
    fn from(fit: &Fit) -> Encoded {
        Encoded {
            number: 0,
            shape: fit.shape.number() as u32,
            side: fit.shape.side() as u32,
            data_words: fit.data.len() as u32,
            check_words: fit.check_words() as u32,
        }
    }
}

/// What is due for a message and a percentage, whatever the grid buffer's length.
pub struct Due {
    encoded: Encoded,
    /// side² modules, none after a refusal.
    pub modules: Vec<u8>,
}

impl Due {
    pub fn of(message: &[u8], percent: u32) -> Due {
        match fit(message, percent) {
            Ok(fit) => Due {
                encoded: Encoded::from(&fit),
                modules: fit.modules(),
            },
            Err(number) => Due {
                encoded: refusal(number),
                modules: Vec::new(),
            },
        }
    }

    /// The answer for a grid buffer of `room` bytes: 4 comes last.
    pub fn answer(&self, room: usize) -> Encoded {
        if room < self.modules.len() {
            return refusal(4);
        }
        self.encoded
    }
}

/// "Any other number comes with zeros in every other field"
fn refusal(number: u32) -> Encoded {
    Encoded {
        number,
        ..Encoded::default()
    }
}

/// What stands in a grid buffer before a call: no byte of it is a module.
fn untouched_modules(len: usize, turn: usize) -> Vec<u8> {
    (0..len)
        .map(|i| (i as u8).wrapping_mul(0x4F) ^ turn as u8 | 2)
        .collect()
}

/// Makes one call with a grid buffer of `room` bytes and lists what is unlike what is due:
/// the five fields, every byte of the grid buffer, the message, and the guards around both.
pub fn differences(
    encode: Encode,
    (message, percent): (&[u8], u32),
    due: &Due,
    room: usize,
    turn: usize,
) -> Vec<String> {
    let mut expected = untouched_modules(room, turn);
    let mut from = Guarded::new(message, turn, mark_pattern);
    let mut to = Guarded::new(&expected, turn, mark_pattern);
    let (lent, grid) = (from.inside_mut(), to.inside_mut());
    let got = unsafe { encode(lent, message.len(), percent, grid, room) };
    let mut list = trespasses(&from, &to, message);
    let answer = due.answer(room);
    if got != answer {
        list.push(format!("{got:?}, due {answer:?}"));
    }
    if answer.number == 0 {
        expected[..due.modules.len()].copy_from_slice(&due.modules);
    }
    list.extend(unlike(to.inside(), &expected, answer.side as usize));
    list
}

/// Lists what the call had no right to change, and did.
fn trespasses(from: &Guarded<u8>, to: &Guarded<u8>, message: &[u8]) -> Vec<String> {
    let tests = [
        (from.guards_intact(), "what lies beside the message"),
        (from.inside() == message, "the message"),
        (to.guards_intact(), "what lies beside the grid buffer"),
    ];
    let broken = tests.into_iter().filter(|(intact, _)| !intact);
    broken
        .map(|(_, what)| format!("{what} was changed"))
        .collect()
}

/// How many bytes of the grid buffer are not as due, and where the first one is.
fn unlike(got: &[u8], due: &[u8], side: usize) -> Option<String> {
    let places = got.iter().zip(due).enumerate();
    let unlike: Vec<usize> = places
        .filter(|(_, (got, due))| got != due)
        .map(|(i, _)| i)
        .collect();
    let &first = unlike.first()?;
    let module = match side {
        0 => String::new(),
        side => format!(" (row {}, column {})", first / side, first % side),
    };
    let (count, got, due) = (unlike.len(), got[first], due[first]);
    Some(format!(
        "{count} bytes of the grid buffer, the first at {first}{module}: {got}, due {due}"
    ))
}
