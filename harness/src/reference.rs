//! The corrector of document 01, written from its words alone and by linear algebra.
//!
//! Notation: a block of n words has place i (0 first) at the power x^(n-1-i), so the
//! locator of place i is X_i = 2^(n-1-i). The places' locators differ, since n is at most
//! 2^B - 1. The syndrome S_j of a block is its value at 2^j, the sum of word_i · X_i^j.
//!
//! At most one valid block is within the limit: two of them would differ only where either
//! differs from the readable words and where a word is marked, so in at most
//! r1 + r2 + e <= K places, while two different valid blocks differ in K + 1 or more
//! (K columns of powers 1 to K of different locators are independent).

use crate::field::Field;

/// What is handed to the corrector. The third slice counts by its length alone.
#[derive(Clone)]
pub struct Call {
    pub word_size: u32,
    pub check_words: usize,
    pub received: Vec<u16>,
    pub marks: Vec<u8>,
    pub corrected_len: usize,
}

/// The whole block found, or the number of the refusal.
pub type Answer = Result<Vec<u16>, u32>;

/// The first of 31, 32 and 33 that applies ("Numbers that come back").
pub fn unlawful(call: &Call) -> Option<u32> {
    let n = call.received.len();
    if call.marks.len() != n || call.corrected_len != n {
        return Some(31);
    }
    let Some(field) = Field::of(call.word_size) else {
        return Some(32);
    };
    if n == 0 || n > field.order() || call.check_words == 0 || call.check_words >= n {
        return Some(32);
    }
    let bad = |(&word, &mark): (&u16, &u8)| mark > 1 || mark == 0 && word as usize > field.order();
    if call.received.iter().zip(&call.marks).any(bad) {
        return Some(33);
    }
    None
}

/// K syndromes, the first for 2^1.
pub fn syndromes(field: &Field, block: &[u16], check_words: usize) -> Vec<u16> {
    (1..=check_words)
        .map(|j| field.value(block, field.power(j)))
        .collect()
}

/// "A block … is valid when its polynomial is zero at 2^1 to 2^K."
pub fn valid(field: &Field, block: &[u16], check_words: usize) -> bool {
    syndromes(field, block, check_words).iter().all(|&s| s == 0)
}

/// 2r + e of a block, against the readable words.
pub fn distance(block: &[u16], received: &[u16], marks: &[u8]) -> usize {
    let words = block.iter().zip(received).zip(marks);
    words
        .map(|((a, b), &mark)| {
            if mark == 1 {
                1
            } else {
                2 * usize::from(a != b)
            }
        })
        .sum()
}

/// The valid block with 2r + e at most K, if there is one; for lawful arguments.
///
/// What is answered is right, because the last lines test it. Nothing is missed: suppose a
/// valid block is within the limit, with r readable words wrong, so r <= t. By `suspects`
/// every wrong place is suspected, and no more than K places are. The block found agrees
/// with that block outside the suspected places, where both have the same K syndromes, and
/// at most K places are determined by K syndromes; so it is that block.
pub fn nearest(field: &Field, k: usize, received: &[u16], marks: &[u8]) -> Option<Vec<u16>> {
    let marked = marks.iter().filter(|&&mark| mark == 1).count();
    if marked > k {
        return None;
    }
    // The value of a marked word is ignored: 0 stands for it.
    let words = received.iter().zip(marks);
    let readable: Vec<u16> = words.map(|(&w, &m)| if m == 1 { 0 } else { w }).collect();
    let sums = syndromes(field, &readable, k);
    let places = suspects(field, &sums, marks);
    let block = filled(field, &readable, &places, &sums);
    let lawful = valid(field, &block, k) && distance(&block, received, marks) <= k;
    lawful.then_some(block)
}

/// The marked places, and up to t = floor((K - e) / 2) others that hold every wrong place
/// if no more than t readable words are wrong.
///
/// The syndromes, each combined with e earlier ones by the coefficients of the product of
/// (1 - X x) over the marked X, lose the marked places:
/// T_j = sum over wrong places of W_i · X_i^j for j = e+1 .. K, with W_i not 0.
/// Any polynomial L other than 0, of degree at most t, with
/// sum over k of L_k · T_(j-k) = 0 for the t values j = e+t+1 .. e+2t
/// gives sum over i of W_i · L(1/X_i) · X_i^j = 0 for t successive j, and since at most t
/// different X_i occur, each L(1/X_i) is 0. These are t equations in t + 1 unknowns, so
/// there is such an L, and it has at most t roots.
fn suspects(field: &Field, sums: &[u16], marks: &[u8]) -> Vec<usize> {
    let n = marks.len();
    let mut places: Vec<usize> = (0..n).filter(|&i| marks[i] == 1).collect();
    let marked = places.len();
    let erasure = erasure_locator(field, &places, n);
    let combined: Vec<u16> = (marked..sums.len())
        .map(|j| {
            let products = (0..=marked).map(|k| field.product(erasure[k], sums[j - k]));
            products.fold(0, |a, b| a ^ b)
        })
        .collect();
    let t = combined.len() / 2;
    let rows = (0..t)
        .map(|i| (0..=t).map(|k| combined[t + i - k]).collect())
        .collect();
    let mut locator = null_vector(field, rows, t + 1);
    locator.reverse();
    let inverse_of = |i: usize| field.inverse(field.power(n - 1 - i));
    let readable = (0..n).filter(|&i| marks[i] == 0);
    places.extend(readable.filter(|&i| field.value(&locator, inverse_of(i)) == 0));
    places
}

/// The product of (1 - X x) over the places' locators, lowest coefficient first.
fn erasure_locator(field: &Field, places: &[usize], n: usize) -> Vec<u16> {
    let mut locator = vec![1];
    for &place in places {
        let lower = locator.clone();
        locator.push(0);
        field.add_multiple(&mut locator[1..], field.power(n - 1 - place), &lower);
    }
    locator
}

/// A vector other than 0 that every row sends to 0; there are fewer rows than columns.
///
/// Gaussian elimination goes on to the first column without a pivot. That column gets 1,
/// the columns after it 0, the columns before it follow from their pivots.
fn null_vector(field: &Field, mut rows: Vec<Vec<u16>>, columns: usize) -> Vec<u16> {
    let mut free = 0;
    while let Some(pivot) = (free..rows.len()).find(|&i| rows[i][free] != 0) {
        rows.swap(free, pivot);
        let (above, below) = rows.split_at_mut(free + 1);
        let pivot = &above[free];
        let inverse = field.inverse(pivot[free]);
        for row in below {
            let factor = field.product(row[free], inverse);
            field.add_multiple(&mut row[free..], factor, &pivot[free..]);
        }
        free += 1;
    }
    let mut vector = vec![0; columns];
    vector[free] = 1;
    for i in (0..free).rev() {
        let products = (i + 1..=free).map(|c| field.product(rows[i][c], vector[c]));
        let sum = products.fold(0, |a, b| a ^ b);
        vector[i] = field.product(sum, field.inverse(rows[i][i]));
    }
    vector
}

/// The block with the words at the f given places changed so that S_1 to S_f become 0.
///
/// With P the product of (x - X_m) over the other places m, and Y the change at place l,
/// sum over k of P_k · S_(k+1) = Y · X_l · P(X_l): all other places drop out.
pub fn filled(field: &Field, block: &[u16], places: &[usize], sums: &[u16]) -> Vec<u16> {
    let locator_of = |&place: &usize| field.power(block.len() - 1 - place);
    let all = roots_product(field, &places.iter().map(locator_of).collect::<Vec<_>>());
    let mut found = block.to_vec();
    for place in places {
        let x = locator_of(place);
        // Synthetic division of the whole product by (x - X_l); highest coefficient first.
        let mut rest = 0;
        let mut others = all[..places.len()].to_vec();
        for coefficient in &mut others {
            *coefficient ^= field.product(rest, x);
            rest = *coefficient;
        }
        let pairs = others.iter().rev().zip(sums);
        let sum = pairs.fold(0, |sum, (&p, &s)| sum ^ field.product(p, s));
        let scale = field.product(x, field.value(&others, x));
        found[*place] ^= field.product(sum, field.inverse(scale));
    }
    found
}

/// The product of (x - root), highest coefficient first.
fn roots_product(field: &Field, roots: &[u16]) -> Vec<u16> {
    let mut product = vec![1];
    for &root in roots {
        let before = product.clone();
        product.push(0);
        field.add_multiple(&mut product[1..], root, &before);
    }
    product
}

/// Makes blocks: the check words are the remainder of long division by the generator
/// (x - 2^1) … (x - 2^K), as annex G.4 of source 000 does it.
pub struct Maker {
    field: &'static Field,
    generator: Vec<u16>,
}

impl Maker {
    pub fn new(field: &'static Field, check_words: usize) -> Maker {
        let roots: Vec<u16> = (1..=check_words).map(|j| field.power(j)).collect();
        let generator = roots_product(field, &roots);
        Maker { field, generator }
    }

    /// The whole block: data words, then check words.
    pub fn block(&self, data: &[u16]) -> Vec<u16> {
        let mut rest = data.to_vec();
        rest.resize(data.len() + self.generator.len() - 1, 0);
        for i in 0..data.len() {
            let factor = rest[i];
            let window = &mut rest[i..i + self.generator.len()];
            self.field.add_multiple(window, factor, &self.generator);
        }
        rest[..data.len()].copy_from_slice(data);
        rest
    }
}

/// Every valid block with 2r + e at most K, by trying all data words in turn. The check
/// words follow from the data words, so no valid block is left out.
pub fn search(field: &'static Field, k: usize, received: &[u16], marks: &[u8]) -> Vec<Vec<u16>> {
    let maker = Maker::new(field, k);
    let data = received.len() - k;
    let choices = 1usize << (field.bits as usize * data);
    let word =
        |choice: usize, i: usize| (choice >> (field.bits as usize * i) & field.order()) as u16;
    (0..choices)
        .map(|choice| maker.block(&(0..data).map(|i| word(choice, i)).collect::<Vec<_>>()))
        .filter(|block| distance(block, received, marks) <= k)
        .collect()
}

/// Whether `search` is cheap: at most 4,096 blocks to try.
pub fn searchable(bits: u32, n: usize, k: usize) -> bool {
    bits as usize * (n - k) <= 12
}
