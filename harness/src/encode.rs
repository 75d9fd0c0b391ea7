//! The library's maker beside the independent one of `symbol`.

pub mod bench;
pub mod calls;
pub mod compare;
pub mod draw;
#[cfg(test)]
mod stand_ins;
pub mod timed;
