//! Whole input sets of tiny blocks.

use super::Case;

/// All words and marks at 4 bits with n 2 and 3, then all mixtures of edge values, lawful
/// and not.
pub fn all(take: &mut dyn FnMut(Case)) {
    let words: Vec<u16> = (0..16).collect();
    let edges = [0, 1, 15, 16, 65_535];
    for (n, k) in [(2, 1), (3, 1), (3, 2)] {
        products(n, k, &words, &[0, 1], "all words of a tiny block", take);
        products(n, k, &edges, &[0, 1, 2], "edge words of a tiny block", take);
    }
}

/// Every choice of n words and n marks from the two lists.
fn products(
    n: usize,
    k: usize,
    words: &[u16],
    marks: &[u8],
    label: &'static str,
    take: &mut dyn FnMut(Case),
) {
    let pairs = words.len() * marks.len();
    for choice in 0..pairs.pow(n as u32) {
        let digits = (0..n as u32).map(|i| choice / pairs.pow(i) % pairs);
        let (received, marks) = digits
            .map(|digit| (words[digit / marks.len()], marks[digit % marks.len()]))
            .unzip();
        take(Case::new(label, 4, k, received, marks));
    }
}
