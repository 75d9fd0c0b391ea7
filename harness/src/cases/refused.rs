//! Messages that are refused, and every pair of refusals that can apply at once. Each is
//! called with grid buffers of length 0 up to more than any shape needs, so that 4 competes
//! everywhere.

use super::tags::{tag, Take};
use crate::stream::LONGEST;

/// Outside 5 to 95: next to it, and what a narrower integer would take for something inside.
const BAD: [u32; 16] = [
    0,
    1,
    4,
    96,
    97,
    100,
    101,
    255,
    256,
    256 + 5,
    256 + 23,
    65_535,
    65_536 + 23,
    1 << 31,
    u32::MAX - 72,
    u32::MAX,
];

const GOOD: [u32; 4] = [5, 23, 50, 95];

/// Lengths too long for any shape, whatever the bytes; from 4,993 on by the bits alone.
const TOO_LONG: [usize; 6] = [LONGEST, LONGEST + 1, 5_023, 7_968, 65_536, 100_000];

pub fn all(take: Take) {
    // 1, alone and against 2.
    for percent in BAD.into_iter().chain(0..=99) {
        take(tag("no message", Vec::new(), percent));
    }
    // 2, alone and against 3.
    for percent in BAD {
        for len in [1, 2, 200, LONGEST, LONGEST + 1, 100_000] {
            for byte in [b'7', 0] {
                let message = vec![byte; len];
                take(tag("a percentage outside 5 to 95", message, percent));
            }
        }
    }
    // 3; the longest digits that go in are among the edges.
    for percent in GOOD {
        for len in TOO_LONG {
            for byte in [b'7', b'A', b'~', b'!', 0, 255] {
                let message = vec![byte; len];
                take(tag("a message too long for any shape", message, percent));
            }
        }
    }
}
