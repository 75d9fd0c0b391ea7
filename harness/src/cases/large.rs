//! A few large blocks: those of F32, and the largest that are lawful.

use super::damage::Draw;
use super::Case;
use crate::field::Field;
use crate::random::Random;

/// Word size, n, K, and the pairs (wrong, marked) tried.
type Group = (u32, usize, usize, &'static [(usize, usize)]);

const GROUPS: [Group; 6] = [
    (
        12,
        1_664,
        386,
        &[
            (0, 0),
            (1, 0),
            (50, 0),
            (60, 0),
            (50, 11),
            (40, 306),
            (193, 0),
            (194, 0),
            (0, 386),
            (0, 387),
            (1, 385),
            (143, 100),
            (143, 101),
            (192, 1),
            (192, 2),
            (1_600, 0),
        ],
    ),
    (
        12,
        4_095,
        1_000,
        &[(500, 0), (501, 0), (250, 500), (250, 501), (0, 1_000)],
    ),
    (12, 4_095, 1, &[(0, 0), (0, 1), (1, 0), (0, 2)]),
    (
        10,
        1_023,
        1_022,
        &[
            (511, 0),
            (512, 0),
            (0, 1_022),
            (0, 1_023),
            (256, 510),
            (256, 511),
        ],
    ),
    (
        8,
        255,
        254,
        &[(127, 0), (128, 0), (0, 254), (0, 255), (64, 126), (64, 127)],
    ),
    (
        12,
        4_095,
        4_094,
        &[
            (0, 0),
            (2_047, 0),
            (2_048, 0),
            (0, 4_094),
            (0, 4_095),
            (4_095, 0),
        ],
    ),
];

pub fn all(random: &mut Random, take: &mut dyn FnMut(Case)) {
    for (bits, n, k, pairs) in GROUPS {
        for &damage in pairs {
            take(made(random, (bits, n, k), damage));
        }
    }
    for wrong in 51..=60 {
        take(made(random, (12, 1_664, 386), (wrong, 0)));
    }
}

/// The largest lawful block with wrong and marked words, exactly at the limit: every stage
/// of a corrector at its full size.
pub fn largest(random: &mut Random) -> Case {
    let case = made(random, (12, 4_095, 4_094), (1_000, 2_094));
    let label = "the largest block on a stack of 256 KiB";
    Case { label, ..case }
}

/// A made block of (B, n, K) with wrong and marked words at random places.
pub fn made(
    random: &mut Random,
    (bits, n, k): (u32, usize, usize),
    (wrong, marked): (usize, usize),
) -> Case {
    let field = Field::of(bits).expect("a listed size");
    let mut draw = Draw {
        random,
        field,
        n,
        k,
    };
    draw.made("a large block", wrong, marked)
}
