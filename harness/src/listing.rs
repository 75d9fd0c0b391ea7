//! "The print run": the listing of document 01, written from its words alone.

pub mod bench;
pub mod compare;
pub mod folder;
pub mod own;
pub mod program;

use crate::symbol::fit;

/// Bytes of a record.
pub const RECORD: usize = 32;

/// The most bytes of a record's message.
pub const ROOM: usize = RECORD - 2;

/// The whole output for a file: "Numbers start at 1, one space stands between fields, each
/// line ends with one line feed."
pub fn listing(file: &[u8]) -> String {
    let records = file.chunks(RECORD).enumerate();
    let lines = records.map(|(i, record)| format!("{} {}\n", i + 1, told(record)));
    lines.collect()
}

/// A line after the record's number.
fn told(record: &[u8]) -> String {
    let Some((message, percent)) = parts(record) else {
        return "bad".into();
    };
    match fit(message, percent) {
        Ok(fit) => {
            let (shape, side) = (fit.shape.name(), fit.shape.side());
            format!("{shape} {side} {} {}", fit.data.len(), fit.check_words())
        }
        Err(number) => format!("refused {number}"),
    }
}

/// Message and percentage; none for "a bad length or unused byte, or a short last record".
fn parts(record: &[u8]) -> Option<(&[u8], u32)> {
    if record.len() < RECORD {
        return None;
    }
    let (length, percent) = (usize::from(record[0]), record[1]);
    if !(1..=ROOM).contains(&length) {
        return None;
    }
    let (message, unused) = record[2..].split_at(length);
    let lawful = unused.iter().all(|&byte| byte == 0);
    lawful.then_some((message, percent.into()))
}
