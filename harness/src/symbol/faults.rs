//! The maker against everything that the papers print of it.

use super::shape::{self, Shape};
use super::{block, fit, mode_words, places};

/// Source 000, table 1: side and words of each shape, by layers.
const TABLE_1_COMPACT: [(usize, usize); 4] = [(15, 17), (19, 40), (23, 51), (27, 76)];
#[rustfmt::skip]
const TABLE_1_FULL: [(usize, usize); 32] = [
    (19, 21), (23, 48), (27, 60), (31, 88), (37, 120), (41, 156), (45, 196), (49, 240),
    (53, 230), (57, 272), (61, 316), (67, 364), (71, 416), (75, 470), (79, 528), (83, 588),
    (87, 652), (91, 720), (95, 790), (101, 864), (105, 940), (109, 1_020), (113, 920), (117, 992),
    (121, 1_066), (125, 1_144), (131, 1_224), (135, 1_306), (139, 1_392), (143, 1_480),
    (147, 1_570), (151, 1_664),
];

/// Source 000, annex G: the data words of its example (it takes shifts, which this maker
/// never does), and the check words of data and mode.
pub const ANNEX_G: [u16; 10] = [9, 50, 1, 41, 47, 2, 39, 37, 1, 27];
const ANNEX_G_CHECKS: [u16; 7] = [38, 50, 8, 16, 10, 20, 40];
const ANNEX_G_MODE: [u16; 7] = [0, 9, 12, 2, 3, 1, 9];

/// Message, percentage, and shape, side, D, K: "The print run".
const PRINT_RUN: [(&[u8], u32, &str, [usize; 3]); 2] = [
    (b"POT", 23, "C1", [15, 3, 14]),
    (b"A", 95, "F4", [31, 1, 87]),
];

/// What is not as printed.
pub fn all() -> Vec<String> {
    let mut faults = Vec::new();
    let mut hold = |holds: bool, what: &str| {
        if !holds {
            faults.push(what.to_string());
        }
    };
    hold(shape::every().zip(table_1()).all(as_printed), "table 1");
    hold(shape::every().all(places_cover), "the data places");
    let made = block(6, &ANNEX_G, 7);
    hold(made[10..] == ANNEX_G_CHECKS, "annex G's check words");
    let mode = mode_words(Shape::compact(1), 10);
    hold(mode == ANNEX_G_MODE, "annex G's mode words");
    // "mode bits 01011100 are L 2, D 29"
    let mode = mode_words(Shape::compact(2), 29);
    hold(mode[..2] == [0b0101, 0b1100], "the mode bits of L 2, D 29");
    let c1 = Shape::compact(1);
    let printed = (c1.bits(), c1.words(), c1.bits() % 6, c1.most_data(23));
    hold(printed == (104, 17, 2, 10), "C1's numbers");
    let at_95 = [Shape::compact(4), Shape::full(4)].map(|shape| shape.most_data(95));
    hold(at_95 == [0, 1], "the most data words at 95 percent");
    hold(PRINT_RUN.iter().all(listed_so), "the print run");
    hold(
        words_in(64) == "C4" && words_in(65) == "F4",
        "64 and 65 data words",
    );
    faults
}

fn table_1() -> impl Iterator<Item = (usize, usize)> {
    TABLE_1_COMPACT.into_iter().chain(TABLE_1_FULL)
}

fn as_printed((shape, printed): (Shape, (usize, usize))) -> bool {
    (shape.side(), shape.words()) == printed
}

/// "What is left has side S = 11 + 4L or 14 + 4L", and no place comes twice among the Cb.
fn places_cover(shape: Shape) -> bool {
    let left = shape.either(11, 14) + 4 * shape.layers;
    let mut all = places::data(shape);
    let bits = all.len();
    all.sort_unstable();
    all.dedup();
    places::kept(shape).len() == left && bits == shape.bits() && all.len() == bits
}

fn listed_so((message, percent, name, numbers): &(&[u8], u32, &str, [usize; 3])) -> bool {
    fit(message, *percent).is_ok_and(|fit| {
        let got = [fit.shape.side(), fit.data.len(), fit.check_words()];
        fit.shape.name() == *name && got == *numbers
    })
}

/// Where so many 8-bit words go at 5 percent: letters that need no stuffing, 5 bits each.
fn words_in(words: usize) -> String {
    let message = vec![b'K'; words * 8 / 5];
    let fit = fit(&message, 5).ok();
    let same = fit.filter(|fit| fit.data.len() == words);
    same.map_or(String::new(), |fit| fit.shape.name())
}
