//! `aztec_decode`, with both lent buffers inside larger ones.

use crate::guard::{mark_pattern, trespasses, unlike, untouched_bytes, Guarded};
use crate::reader::Reading;
use std::process::ExitCode;

#[repr(C)]
#[derive(Clone, Copy, PartialEq, Debug, Default)]
pub struct Decoded {
    pub number: u32,
    pub length: u32,
    pub shape: u32,
    pub position: u32,
    pub unread: u32,
    pub wrong: u32,
}

/// A reader under test: grid and its length, side, message buffer and its length.
pub type Decode = unsafe extern "C" fn(*const u8, usize, u32, *mut u8, usize) -> Decoded;

#[cfg(aztec_decode)]
extern "C" {
    fn aztec_decode(
        grid: *const u8,
        grid_length: usize,
        side: u32,
        message: *mut u8,
        message_length: usize,
    ) -> Decoded;
}

/// The library's reader, where the archive had one when the harness was built.
pub fn library() -> Option<Decode> {
    #[cfg(aztec_decode)]
    let found = Some(aztec_decode as Decode);
    #[cfg(not(aztec_decode))]
    let found = None;
    found
}

/// Hands the library's reader to a command; where there is none, says so and ends with 2.
pub fn with_library(command: impl FnOnce(Decode) -> ExitCode) -> ExitCode {
    let Some(decode) = library() else {
        eprintln!("built without aztec_decode: libaztec_c.a doesn't define it");
        return ExitCode::from(2);
    };
    command(decode)
}

/// The bare call.
pub fn decoded(decode: Decode, grid: &[u8], side: u32, message: &mut [u8]) -> Decoded {
    let (from, to) = (grid.as_ptr(), message.as_mut_ptr());
    // Both slices are alive and apart for the length of the call.
    unsafe { decode(from, grid.len(), side, to, message.len()) }
}

/// What a reading is to a message buffer of `room` bytes: 21 comes last.
pub fn answer(reading: &Reading, room: usize) -> Decoded {
    match reading {
        Ok(read) if read.message.len() <= room => Decoded {
            number: 0,
            length: read.message.len() as u32,
            shape: read.shape.number() as u32,
            position: read.position as u32,
            unread: read.unread as u32,
            wrong: read.wrong as u32,
        },
        Ok(_) => refusal(21),
        Err(number) => refusal(*number),
    }
}

/// "Any other number comes with zeros in every other field"
pub fn refusal(number: u32) -> Decoded {
    Decoded {
        number,
        ..Decoded::default()
    }
}

/// Makes one call with a message buffer of `room` bytes and lists what is unlike what is due:
/// the six fields, every byte of the message buffer, the grid, and the guards around both.
pub fn differences(
    decode: Decode,
    (modules, side): (&[u8], u32),
    reading: &Reading,
    room: usize,
    turn: usize,
) -> Vec<String> {
    let mut expected = untouched_bytes(room, turn);
    let mut from = Guarded::new(modules, turn, mark_pattern);
    let mut to = Guarded::new(&expected, turn, mark_pattern);
    let (lent, message) = (from.inside_mut(), to.inside_mut());
    let got = unsafe { decode(lent, modules.len(), side, message, room) };
    let mut list = trespasses("grid", &from, Some(modules));
    list.extend(trespasses("message", &to, None));
    let answer = answer(reading, room);
    if got != answer {
        list.push(format!("{got:?}, due {answer:?}"));
    }
    if let (0, Ok(read)) = (answer.number, reading) {
        expected[..read.message.len()].copy_from_slice(&read.message);
    }
    let bytes = unlike(to.inside(), &expected);
    list.extend(bytes.map(|what| format!("message, room {room}: {what}")));
    list
}
