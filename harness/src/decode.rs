//! The library's reader beside the independent one of `reader`.

pub mod bench;
pub mod calls;
pub mod compare;
#[cfg(test)]
mod stand_ins;
mod timed;
