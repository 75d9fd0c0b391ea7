//! The calls of the stream, with every lent buffer inside a larger one.

use super::read::Reading;
use crate::guard::{
    mark_pattern, trespasses, unlike, untouched, untouched_bytes, word_pattern, Guarded,
};

#[repr(C)]
#[derive(Clone, Copy, PartialEq, Debug)]
pub struct Judged {
    pub number: u32,
    pub value: usize,
}

extern "C" {
    fn stream_count(message: *const u8, message_len: usize, word_size: u32) -> usize;
    fn stream_write(
        message: *const u8,
        message_len: usize,
        word_size: u32,
        words: *mut u16,
        words_len: usize,
    ) -> usize;
    fn stream_judge(words: *const u16, words_len: usize, word_size: u32) -> Judged;
    fn stream_message(
        words: *const u16,
        words_len: usize,
        word_size: u32,
        message: *mut u8,
        message_len: usize,
    );
}

/// The bare calls, for the bench.
pub fn write(message: &[u8], size: u32, words: &mut [u16]) -> usize {
    let (from, to) = (message.as_ptr(), words.as_mut_ptr());
    // Both slices are alive and apart for the length of the call.
    unsafe { stream_write(from, message.len(), size, to, words.len()) }
}

pub fn judge(words: &[u16], size: u32) -> Judged {
    unsafe { stream_judge(words.as_ptr(), words.len(), size) }
}

/// Only after `judge` answered 0 with at most `message.len()`.
pub fn message(words: &[u16], size: u32, message: &mut [u8]) {
    let (from, to) = (words.as_ptr(), message.as_mut_ptr());
    unsafe { stream_message(from, words.len(), size, to, message.len()) }
}

/// `stream_count` on any message.
pub fn counted(message: &[u8], size: u32, due: usize, turn: usize) -> Vec<String> {
    let mut from = Guarded::new(message, turn, mark_pattern);
    let count = unsafe { stream_count(from.inside_mut(), message.len(), size) };
    let mut list = trespasses("message", &from, Some(message));
    if count != due {
        list.push(format!("stream_count {count}, due {due}"));
    }
    list
}

/// `stream_write` into a buffer of `room` words: the same number whatever the room, "the
/// words stored from the front as far as `words` reaches; the rest untouched".
pub fn written(message: &[u8], size: u32, due: &[u16], room: usize, turn: usize) -> Vec<String> {
    let mut expected = untouched(room);
    let mut from = Guarded::new(message, turn, mark_pattern);
    let mut to = Guarded::new(&expected, turn, word_pattern);
    let count = unsafe {
        stream_write(
            from.inside_mut(),
            message.len(),
            size,
            to.inside_mut(),
            room,
        )
    };
    let mut list = trespasses("message", &from, Some(message));
    list.extend(trespasses("words", &to, None));
    if count != due.len() {
        list.push(format!("stream_write {count}, due {}", due.len()));
    }
    for (slot, &word) in expected.iter_mut().zip(due) {
        *slot = word;
    }
    let words = unlike(to.inside(), &expected);
    list.extend(words.map(|what| format!("words, room {room}: {what}")));
    list
}

/// `stream_judge`, and where it rightly answers 0 `stream_message` into a buffer that the
/// message fills and into a longer one.
pub fn judged(words: &[u16], size: u32, due: &Reading, turn: usize) -> Vec<String> {
    let mut from = Guarded::new(words, turn, word_pattern);
    let got = unsafe { stream_judge(from.inside_mut(), words.len(), size) };
    let mut list = trespasses("words", &from, Some(words));
    let (number, value) = match due {
        Ok(message) => (0, message.len()),
        Err(refused) => *refused,
    };
    if got != (Judged { number, value }) {
        let (got_number, got_value) = (got.number, got.value);
        list.push(format!(
            "stream_judge {got_number} with {got_value}, due {number} with {value}"
        ));
    } else if let Ok(message) = due {
        for more in [0, 1 + turn % 23] {
            list.extend(read_back(words, size, message, more, turn));
        }
    }
    list
}

fn read_back(words: &[u16], size: u32, due: &[u8], more: usize, turn: usize) -> Vec<String> {
    let mut expected = untouched_bytes(due.len() + more, turn);
    let mut from = Guarded::new(words, turn, word_pattern);
    let mut to = Guarded::new(&expected, turn, mark_pattern);
    let room = expected.len();
    unsafe { stream_message(from.inside_mut(), words.len(), size, to.inside_mut(), room) };
    expected[..due.len()].copy_from_slice(due);
    let mut list = trespasses("words", &from, Some(words));
    list.extend(trespasses("message", &to, None));
    let bytes = unlike(to.inside(), &expected);
    list.extend(bytes.map(|what| format!("message, room {room}: {what}")));
    list
}
