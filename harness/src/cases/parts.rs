//! Blocks at the edges where a corrector may go another way: lengths around powers of 2 and
//! around the parts into which 2^B - 1 divides, with n·K on both sides of 4·2^B.

use super::damage::Draw;
use super::Case;
use crate::field::Field;
use crate::random::Random;

/// A word size, and lengths to go one below and one above.
const LENGTHS: [(u32, &[usize]); 4] = [
    (6, &[31, 62]),
    (8, &[17, 51, 64, 102, 204, 254]),
    (10, &[31, 64, 93, 186, 256, 930, 1_022]),
    (12, &[13, 39, 64, 117, 256, 468, 585, 1_170, 3_510, 4_094]),
];

/// The reference costs K³ where no answer is known.
const MOST_CHECKS: usize = 300;

pub fn all(random: &mut Random, take: &mut dyn FnMut(Case)) {
    for (bits, lengths) in LENGTHS {
        let field = Field::of(bits).expect("a listed size");
        for n in lengths.iter().flat_map(|&n| [n - 1, n, n + 1]) {
            for k in checks(field, n) {
                let random = &mut *random;
                damages(Draw {
                    random,
                    field,
                    n,
                    k,
                })
                .into_iter()
                .for_each(&mut *take);
            }
        }
    }
}

/// Few check words, and as many as n·K takes to come to 4·2^B, with one more and one less.
fn checks(field: &Field, n: usize) -> Vec<usize> {
    let enough = (4 * (field.order() + 1)).div_ceil(n);
    let mut checks = vec![2, enough - 1, enough, enough + 1];
    checks.retain(|&k| 0 < k && k < n && k <= MOST_CHECKS);
    checks.dedup();
    checks
}

/// Clean, at the limit by wrong words, by marks and by both, and one beyond it.
fn damages(mut draw: Draw) -> Vec<Case> {
    let (n, k) = (draw.n, draw.k);
    let wrong = k / 4;
    let marked = k - 2 * wrong;
    let pairs = [
        (0, 0),
        (k / 2, 0),
        (0, k),
        (wrong, marked),
        (wrong, marked + 1),
    ];
    pairs
        .into_iter()
        .filter(|(wrong, marked)| wrong + marked <= n)
        .map(|(wrong, marked)| draw.made("an edge of a part", wrong, marked))
        .collect()
}
