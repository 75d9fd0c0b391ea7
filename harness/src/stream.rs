//! The bit stream of document 01, "From bytes to words" and step 4 of "How a grid is read",
//! written plainly: bits are a `Vec<bool>`, and every rule stands once.
//!
//! Maker and reader are built on `codes`, `write` and `read`; the rest is left out where
//! `libstream_c.a`, which it judges, is missing.

#[cfg(stream_c)]
pub mod bench;
#[cfg(stream_c)]
pub mod calls;
pub mod codes;
#[cfg(stream_c)]
pub mod compare;
pub mod read;
pub mod write;

/// The data words' sizes.
pub const SIZES: [u32; 4] = [6, 8, 10, 12];

/// The longest message that a call may write.
pub const LONGEST: usize = 4_992;

/// The words that the maker forms from a message.
pub fn words_of(message: &[u8], size: u32) -> Vec<u16> {
    write::stuffed(&write::stream(message), size)
}
