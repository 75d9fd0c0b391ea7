//! A grid that is read over and over, for its time.

use super::calls::{answer, decoded, Decode, Decoded};
use super::compare::AMPLE;
use crate::reader::{read, Reading};
use std::hint::black_box;

/// The grid, and the answer that is due.
pub struct Call<'a> {
    decode: Decode,
    modules: &'a [u8],
    pub side: u32,
    reading: Reading,
    pub due: Decoded,
    message: Vec<u8>,
    right: bool,
}

impl Call<'_> {
    pub fn new(decode: Decode, modules: &[u8], side: usize) -> Call<'_> {
        let side = side as u32;
        let reading = read(modules, side);
        Call {
            decode,
            modules,
            side,
            due: answer(&reading, AMPLE),
            reading,
            message: vec![0; AMPLE],
            right: true,
        }
    }

    pub fn once(&mut self) {
        let modules = black_box(self.modules);
        self.right &= decoded(self.decode, modules, self.side, &mut self.message) == self.due;
    }

    /// Whether every answer so far was as due, and the last message is.
    pub fn is_right(&self) -> bool {
        let reading = self.reading.as_ref();
        self.right && reading.map_or(true, |read| self.message.starts_with(&read.message))
    }
}
