//! The eight positions: "the number of clockwise quarter turns, 0 to 3, plus 4 if the made
//! tag was mirrored left to right before them".

use super::core::Offset;

pub const POSITIONS: usize = 8;

/// An offset after some clockwise quarter turns: with y down, (x, y) goes to (−y, x).
pub fn turned((x, y): Offset, turns: usize) -> Offset {
    match turns {
        0 => (x, y),
        _ => turned((-y, x), turns - 1),
    }
}

/// Where a position puts a module of the made tag.
pub fn placed((x, y): Offset, position: usize) -> Offset {
    let mirrored = if position < 4 { x } else { -x };
    turned((mirrored, y), position % 4)
}

/// A made tag put in a position, by whole rows and columns.
pub fn moved(modules: &[u8], side: usize, position: usize) -> Vec<u8> {
    let mut rows: Vec<Vec<u8>> = modules.chunks(side).map(<[u8]>::to_vec).collect();
    if position >= 4 {
        rows.iter_mut().for_each(|row| row.reverse());
    }
    for _ in 0..position % 4 {
        // The lowest row becomes the first column.
        rows = (0..side)
            .map(|column| rows.iter().rev().map(|row| row[column]).collect())
            .collect();
    }
    rows.concat()
}
