//! Grids for the reader.

mod arguments;
mod edges;
mod garbage;
pub mod items;
pub mod limits;
mod made;
mod orientations;
mod pairs;
mod rings;
mod singles;
mod streams;
pub mod texts;

use super::sheet::Sheet;
use crate::random::Random;
use crate::reader::{Read, Reading};

pub struct Shot {
    pub label: &'static str,
    pub side: u32,
    pub modules: Vec<u8>,
    /// The numbers whose cause was put in; the lowest is due.
    pub faults: Vec<u32>,
    /// Bytes of the message that went in, whether or not it can be read: a buffer with less
    /// room is a cause of 21.
    pub bytes: usize,
    /// The answer by construction or by hand; none leaves it to the reference.
    pub known: Option<Reading>,
}

pub type Take<'a> = &'a mut dyn FnMut(Shot);

impl Shot {
    pub fn new(label: &'static str, side: u32, modules: Vec<u8>) -> Shot {
        Shot {
            label,
            side,
            modules,
            faults: Vec::new(),
            bytes: 0,
            known: None,
        }
    }

    pub fn of(label: &'static str, sheet: Sheet) -> Shot {
        let side = sheet.shape.side() as u32;
        Shot::new(label, side, sheet.modules)
    }

    pub fn knowing(self, known: Reading) -> Shot {
        let known = Some(known);
        Shot { known, ..self }
    }

    /// "Lower numbers come first when several apply"; a cut item is the last one, so 19 is
    /// before 20 here too.
    pub fn refused(self, faults: Vec<u32>) -> Shot {
        let known = faults.iter().min().map(|&number| Err(number));
        Shot {
            faults,
            known,
            ..self
        }
    }
}

/// The answer for a symbol whose block is within the limit: so many unread and wrong words.
pub fn answer(sheet: &Sheet, message: &[u8], unread: usize, wrong: usize) -> Reading {
    Ok(Read {
        message: message.to_vec(),
        shape: sheet.shape,
        position: sheet.position,
        unread,
        wrong,
    })
}

/// Hands over every grid, in an order that the seed fixes. `count` is the number of damaged
/// symbols; the rest goes with the 36 shapes.
pub fn all(seed: u64, count: usize, take: Take) {
    arguments::all(&mut Random::new(seed ^ 21), take);
    rings::all(&mut Random::new(seed ^ 22), take);
    edges::all(&mut Random::new(seed ^ 23), take);
    singles::all(&mut Random::new(seed ^ 29), take);
    orientations::all(&mut Random::new(seed ^ 30), take);
    pairs::all(&mut Random::new(seed ^ 24), take);
    garbage::all(&mut Random::new(seed ^ 25), take);
    drawn(seed, count, take);
}

/// Symbols by chance, whole and damaged.
pub fn drawn(seed: u64, count: usize, take: Take) {
    streams::all(seed, count / 8, take);
    made::all(&mut Random::new(seed ^ 27), count, take);
}
