//! Calls the library with every lent buffer inside a larger one, and looks afterwards at
//! everything it had no right to change: demand 1, "reads and writes only inside what it
//! was lent", and "a refusal … changes no byte of any buffer".

use crate::reference::{Answer, Call};

extern "C" {
    #[allow(clippy::too_many_arguments)]
    fn aztec_correct(
        word_size: u32,
        check_words: usize,
        received: *const u16,
        received_len: usize,
        marks: *const u8,
        marks_len: usize,
        corrected: *mut u16,
        corrected_len: usize,
    ) -> u32;
}

/// A corrector: word size, check words, then three slices, each with its length.
pub type Correct =
    unsafe extern "C" fn(u32, usize, *const u16, usize, *const u8, usize, *mut u16, usize) -> u32;

/// The library's.
pub const LIBRARY: Correct = aztec_correct;

/// The bare call, for the bench.
pub fn correct(
    word_size: u32,
    check_words: usize,
    received: &[u16],
    marks: &[u8],
    corrected: &mut [u16],
) -> u32 {
    correct_by(LIBRARY, word_size, check_words, received, marks, corrected)
}

/// The same by a corrector that is given.
pub fn correct_by(
    correct: Correct,
    word_size: u32,
    check_words: usize,
    received: &[u16],
    marks: &[u8],
    corrected: &mut [u16],
) -> u32 {
    // The three slices are alive and apart for the length of the call.
    unsafe {
        correct(
            word_size,
            check_words,
            received.as_ptr(),
            received.len(),
            marks.as_ptr(),
            marks.len(),
            corrected.as_mut_ptr(),
            corrected.len(),
        )
    }
}

/// Words of guard on each side, at least.
const GUARD: usize = 32;

/// A buffer with guards before and behind it. The front guard's length goes with `turn`, so
/// that buffers don't always start on a round address.
pub struct Guarded<T> {
    whole: Vec<T>,
    front: usize,
    len: usize,
    pattern: fn(usize, usize) -> T,
    turn: usize,
}

impl<T: Copy + PartialEq> Guarded<T> {
    pub fn new(inside: &[T], turn: usize, pattern: fn(usize, usize) -> T) -> Guarded<T> {
        let front = GUARD + turn % 7;
        let mut whole: Vec<T> = (0..front + inside.len() + GUARD)
            .map(|i| pattern(i, turn))
            .collect();
        whole[front..front + inside.len()].copy_from_slice(inside);
        Guarded {
            whole,
            front,
            len: inside.len(),
            pattern,
            turn,
        }
    }

    pub fn inside(&self) -> &[T] {
        &self.whole[self.front..self.front + self.len]
    }

    pub fn inside_mut(&mut self) -> *mut T {
        // The whole allocation stands behind this pointer, guards included.
        unsafe { self.whole.as_mut_ptr().add(self.front) }
    }

    pub fn guards_intact(&self) -> bool {
        let outside = (0..self.front).chain(self.front + self.len..self.whole.len());
        let mut outside = outside.map(|i| self.whole[i] == (self.pattern)(i, self.turn));
        outside.all(|same| same)
    }
}

/// Every other turn the guards look like lawful words and marks, so that words read from
/// outside would be taken for real ones.
pub fn word_pattern(i: usize, turn: usize) -> u16 {
    let word = (i as u16).wrapping_mul(0x9E37) ^ 0xC3A5;
    if turn & 1 == 0 {
        word | 0x8000
    } else {
        word % 15 + 1
    }
}

pub fn mark_pattern(i: usize, turn: usize) -> u8 {
    let mark = (i as u8).wrapping_mul(0x35) ^ 0x5A;
    if turn & 1 == 0 {
        mark | 0x80
    } else {
        mark % 2
    }
}

/// What stands in a buffer for words before a call: no value of it is a word of any size.
pub fn untouched(len: usize) -> Vec<u16> {
    (0..len)
        .map(|i| 0xB000 | (i as u16).wrapping_mul(0x6D) & 0x0FFF)
        .collect()
}

/// What stands in a message buffer before a call.
pub fn untouched_bytes(len: usize, turn: usize) -> Vec<u8> {
    (0..len)
        .map(|i| (i as u8).wrapping_mul(0x4F) ^ (0x96 + turn as u8 % 9))
        .collect()
}

/// Lists a buffer whose guards, or an input whose values, are no longer what they were.
pub fn trespasses<T: Copy + PartialEq>(
    name: &str,
    lent: &Guarded<T>,
    input: Option<&[T]>,
) -> Vec<String> {
    let mut list = Vec::new();
    if !lent.guards_intact() {
        list.push(format!("what lies beside `{name}` was changed"));
    }
    if input.is_some_and(|input| lent.inside() != input) {
        list.push(format!("the input `{name}` was changed"));
    }
    list
}

/// The first place at which a buffer is not as due.
pub fn unlike<T: Copy + PartialEq + std::fmt::Debug>(got: &[T], due: &[T]) -> Option<String> {
    let place = got.iter().zip(due).position(|(got, due)| got != due)?;
    let (got, due) = (got[place], due[place]);
    Some(format!("at place {place} stands {got:?}, due {due:?}"))
}

/// The three buffers lent for one call.
struct Lent {
    received: Guarded<u16>,
    marks: Guarded<u8>,
    corrected: Guarded<u16>,
}

impl Lent {
    fn correct(&mut self, word_size: u32, check_words: usize) -> u32 {
        unsafe {
            aztec_correct(
                word_size,
                check_words,
                self.received.inside_mut(),
                self.received.len,
                self.marks.inside_mut(),
                self.marks.len,
                self.corrected.inside_mut(),
                self.corrected.len,
            )
        }
    }

    /// Lists what the call had no right to change, and did.
    fn trespasses(&self, call: &Call) -> Vec<String> {
        let guards = [
            ("received", self.received.guards_intact()),
            ("marks", self.marks.guards_intact()),
            ("corrected", self.corrected.guards_intact()),
        ];
        let broken = guards.iter().filter(|(_, intact)| !intact);
        let mut list: Vec<String> = broken
            .map(|(name, _)| format!("what lies beside `{name}` was changed"))
            .collect();
        if self.received.inside() != call.received || self.marks.inside() != call.marks {
            list.push("an input was changed".into());
        }
        list
    }
}

/// Makes one call and lists what is unlike the answer that is due; an empty list passes.
pub fn differences(call: &Call, due: &Answer, turn: usize) -> Vec<String> {
    let before = untouched(call.corrected_len);
    let mut lent = Lent {
        received: Guarded::new(&call.received, turn, word_pattern),
        marks: Guarded::new(&call.marks, turn, mark_pattern),
        corrected: Guarded::new(&before, turn, word_pattern),
    };
    let number = lent.correct(call.word_size, call.check_words);
    let mut list = lent.trespasses(call);
    let (due_number, due_words, source) = match due {
        Ok(block) => (0, block, "the block"),
        Err(number) => (*number, &before, "what stood there"),
    };
    if number != due_number {
        list.push(format!("number {number}, due {due_number}"));
    }
    let words = lent.corrected.inside().iter().zip(due_words).enumerate();
    let unlike: Vec<_> = words.filter(|(_, (got, want))| got != want).collect();
    if let Some((place, (got, want))) = unlike.first() {
        let count = unlike.len();
        list.push(format!(
            "{count} words unlike {source}, first word {place}: {got}, due {want}"
        ));
    }
    list
}
