//! The examples of document 01 and of the standard (source 000) that concern the corrector,
//! with answers written by hand.

use super::Case;

type Take<'a> = &'a mut dyn FnMut(Case);

/// Valid blocks that the papers print: word size, check words, words.
const PRINTED: [(&str, u32, usize, &[u16]); 5] = [
    (
        "annex G, data words and check words",
        6,
        7,
        &[
            9, 50, 1, 41, 47, 2, 39, 37, 1, 27, 38, 50, 8, 16, 10, 20, 40,
        ],
    ),
    ("annex G, mode words", 4, 5, &[0, 9, 12, 2, 3, 1, 9]),
    // A generator is itself a valid block of K + 1 words.
    (
        "generator of compact mode words",
        4,
        5,
        &[1, 11, 4, 6, 2, 1],
    ),
    (
        "generator of full mode words",
        4,
        6,
        &[1, 7, 9, 3, 12, 10, 12],
    ),
    (
        "annex G, generator of 7",
        6,
        7,
        &[1, 59, 5, 25, 26, 17, 29, 28],
    ),
];

pub fn all(take: Take) {
    for (label, bits, k, block) in PRINTED {
        printed(label, bits, k, block, take);
    }
    bench_tag(take);
    over_marked(take);
    marks_and_values(take);
    orders(take);
}

/// Clean, with every check word marked (the corrector then finds the printed ones), with
/// floor(K/2) wrong, and with one more than K marked.
fn printed(label: &'static str, bits: u32, k: usize, block: &[u16], take: Take) {
    let n = block.len();
    let case = |received: Vec<u16>, marks| Case::new(label, bits, k, received, marks);
    let found = || Ok(block.to_vec());
    take(case(block.to_vec(), vec![0; n]).knowing(found()));
    let first_marked = |count| (0..n).map(|i| u8::from(i < count)).collect::<Vec<u8>>();
    let mut checks_marked = first_marked(k);
    checks_marked.reverse();
    for value in [0, 65_535] {
        let mut received = block.to_vec();
        received[n - k..].fill(value);
        take(case(received, checks_marked.clone()).knowing(found()));
    }
    for start in 0..n - k / 2 {
        let mut received = block.to_vec();
        for word in &mut received[start..start + k / 2] {
            *word ^= 1;
        }
        take(case(received, vec![0; n]).knowing(found()));
    }
    take(case(block.to_vec(), first_marked(k)).knowing(found()));
    take(case(block.to_vec(), first_marked(k + 1)).knowing(Err(34)));
}

/// "B 4, n 7, K 5, received 0 0 5 0 9 0 0, none marked: all zeros is within the limit. For
/// the block of all zeros, one wrong and three marked is within; two wrong and two marked
/// isn't." Each placing of those is one case.
///
/// Two wrong and two marked leave no other block within either: a valid block other than
/// zeros has at most one 0 word, so it differs in two or more of the three readable 0s.
fn bench_tag(take: Take) {
    let case = |label, received: Vec<u16>, marks| Case::new(label, 4, 5, received, marks);
    let zeros = || Ok(vec![0; 7]);
    take(case("0 0 5 0 9 0 0", vec![0, 0, 5, 0, 9, 0, 0], vec![0; 7]).knowing(zeros()));
    for places in 0u32..1 << 14 {
        // Two bits a place: 0 right, 1 wrong, 2 marked.
        let states: Vec<u32> = (0..7).map(|i| places >> (2 * i) & 3).collect();
        let count = |state| states.iter().filter(|&&s| s == state).count();
        let (label, answer) = match (count(1), count(2), count(3)) {
            (1, 3, 0) => ("one wrong and three marked", zeros()),
            (2, 2, 0) => ("two wrong and two marked", Err(34)),
            _ => continue,
        };
        let word = |(i, &state): (usize, &u32)| [0, 5 + 4 * (i as u16 % 2), 11][state as usize];
        let received = states.iter().enumerate().map(word).collect();
        let marks = states.iter().map(|&state| u8::from(state == 2)).collect();
        take(case(label, received, marks).knowing(answer));
    }
}

/// "Copying a block whose checks came out zero without testing 2r + e against K", and the
/// C1 blocks of light modules only: nine marked data words are more than K 8, three aren't
/// more than K 14.
fn over_marked(take: Take) {
    let label = "zero checks, more than K marked";
    let first_marked = |n, count| (0..n).map(|i| u8::from(i < count)).collect::<Vec<u8>>();
    for (n, k, marked, answer) in [
        (17, 8, 9, Err(34)),
        (17, 8, 8, Ok(vec![0; 17])),
        (17, 14, 3, Ok(vec![0; 17])),
        (17, 14, 17, Err(34)),
        (2, 1, 2, Err(34)),
        (2, 1, 1, Ok(vec![0; 2])),
    ] {
        take(Case::new(label, 6, k, vec![0; n], first_marked(n, marked)).knowing(answer));
    }
}

/// "A marked word's value is ignored"; a mark above 1 is 33 whatever its word is.
fn marks_and_values(take: Take) {
    let case = |received: &[u16], marks: &[u8]| {
        let label = "marks and values";
        Case::new(label, 4, 5, received.to_vec(), marks.to_vec())
    };
    let received = [0, 9, 12, 2, 3, 1, 9];
    for place in 0..7 {
        for value in [0, 15, 16, 17, 4_096, 65_535] {
            let mut words = received;
            words[place] = value;
            let mut marks = [0; 7];
            marks[place] = 1;
            take(case(&words, &marks).knowing(Ok(received.to_vec())));
            for mark in [2, 3, 128, 255] {
                marks[place] = mark;
                take(case(&words, &marks).knowing(Err(33)));
            }
            if value > 15 {
                take(case(&words, &[0; 7]).knowing(Err(33)));
            }
        }
    }
}

/// Word size, K, received, marks, length of corrected, and the number due.
type Row = (u32, usize, &'static [u16], &'static [u8], usize, u32);

/// "Lower numbers come first when several apply": faults against each other, by hand.
const ORDERS: [Row; 24] = [
    // All of 31 to 33; then one fault fewer at a time.
    (5, 0, &[16, 0], &[2], 2, 31),
    (5, 0, &[16, 0], &[2, 0], 2, 32),
    (4, 0, &[16, 0], &[2, 0], 2, 32),
    (4, 1, &[16, 0], &[2, 0], 2, 33),
    (4, 1, &[16, 0], &[0, 0], 2, 33),
    (4, 1, &[16, 0], &[1, 1], 2, 34),
    (4, 1, &[16, 0], &[1, 0], 2, 0),
    // 31: each slice apart from the other two, also where it is empty.
    (4, 1, &[0, 0, 0], &[0, 0], 2, 31),
    (4, 1, &[0, 0], &[0, 0, 0], 2, 31),
    (4, 1, &[0, 0], &[0, 0], 3, 31),
    (4, 1, &[], &[0, 0], 2, 31),
    (4, 1, &[0, 0], &[], 2, 31),
    (4, 1, &[0, 0], &[0, 0], 0, 31),
    (4, 1, &[0], &[0, 0], 3, 31),
    // 32: each rule on its own, with a word or mark that would be 33, or too many marks.
    (0, 1, &[0, 0], &[1, 1], 2, 32),
    (u32::MAX, 1, &[0, 0], &[0, 2], 2, 32),
    (4, 1, &[], &[], 0, 32),
    (4, 0, &[], &[], 0, 32),
    (4, 2, &[0, 0], &[1, 1], 2, 32),
    (4, usize::MAX, &[99, 0], &[0, 0], 2, 32),
    (4, 1, &[0; 16], &[1; 16], 16, 32),
    // 33 before 34: the rest of the block is beyond the limit.
    (4, 1, &[0, 0, 0, 1], &[1, 1, 1, 2], 4, 33),
    (4, 1, &[0, 0, 0, 16], &[1, 1, 1, 0], 4, 33),
    (4, 1, &[0, 0, 0, 16], &[1, 1, 1, 1], 4, 34),
];

fn orders(take: Take) {
    for (bits, k, received, marks, corrected_len, number) in ORDERS {
        let mut case = Case::new(
            "orders of numbers",
            bits,
            k,
            received.to_vec(),
            marks.to_vec(),
        );
        case.call.corrected_len = corrected_len;
        let answer = if number == 0 {
            Ok(vec![0; received.len()])
        } else {
            Err(number)
        };
        take(case.knowing(answer));
    }
}
