//! Files for the print run.

use super::kinds::{drawn, CLASSES};
use crate::listing::{RECORD, ROOM};
use crate::random::Random;

pub struct Run {
    pub label: &'static str,
    pub bytes: Vec<u8>,
}

type Take<'a> = &'a mut dyn FnMut(Run);

/// Document 01's records and its "Whole output" for them.
pub const PRINTED: &str = "1 C1 15 3 14\n2 F4 31 1 87\n3 refused 2\n4 bad\n";

pub fn printed() -> Vec<u8> {
    let records = [record(b"POT", 23), record(b"A", 95), record(b"A", 96)];
    [records.concat(), vec![0; RECORD]].concat()
}

/// A lawful record; the message has at most 30 bytes.
pub fn record(message: &[u8], percent: u8) -> Vec<u8> {
    let mut bytes = vec![message.len() as u8, percent];
    bytes.extend(message);
    bytes.resize(RECORD, 0);
    bytes
}

/// A lawful record of any kind and length; most percentages are taken by the maker.
pub fn good(random: &mut Random, i: usize) -> Vec<u8> {
    let len = random.within(1, ROOM);
    let message = drawn(random, i, len).message;
    let percent = random.within(5, 95) as u8;
    record(&message, percent)
}

/// Hands over every file, in an order that the seed fixes; `count` of them by chance.
pub fn all(seed: u64, count: usize, take: Take) {
    take(run("an empty file", Vec::new()));
    take(run("the printed example", printed()));
    let mut random = Random::new(seed ^ 9);
    let random = &mut random;
    lengths(random, take);
    unused(random, take);
    short(random, take);
    values(take);
    sizes(random, take);
    for _ in 0..count {
        let records = random.pick(&[1, 2, 3, 9, 10, 40, 99, 128, 300]);
        take(run("records by chance", mixed(random, records)));
    }
    // The numbers grow by a figure, and thousands of records stream through.
    for records in [999, 1_000, 1_001, 5_000, 10_001, 100_001] {
        take(run("many records", mixed(random, records)));
    }
}

fn run(label: &'static str, bytes: Vec<u8>) -> Run {
    Run { label, bytes }
}

/// Every length byte, alone and in one file; unused bytes are 0, or the message of 30 bytes
/// stands there whatever the length says.
fn lengths(random: &mut Random, take: Take) {
    let mut together = Vec::new();
    for length in 0..=255 {
        for filled in [false, true] {
            let mut bytes = record(&[b'K'; ROOM], random.within(5, 95) as u8);
            bytes[0] = length;
            if !filled {
                let used = 2 + usize::from(length).min(ROOM);
                bytes[used..].fill(0);
            }
            together.extend(&bytes);
            if matches!(length, 0 | 1 | 29 | 30 | 31 | 32 | 127 | 128 | 255) {
                take(run("one record, by its length", bytes));
            }
        }
    }
    take(run("every length byte", together));
}

/// An unused byte that is not 0, at each place for each length, with a percentage that is
/// taken and with one that isn't.
fn unused(random: &mut Random, take: Take) {
    for percent in [23, 96] {
        let mut together = Vec::new();
        for length in 1..ROOM {
            for place in 2 + length..RECORD {
                let mut bytes = record(&vec![b'K'; length], percent);
                bytes[place] = random.pick(&[1, b' ', b'K', 128, 255]);
                together.extend(bytes);
            }
        }
        take(run("an unused byte at each place", together));
    }
    let mut last = record(b"POT", 23);
    last[RECORD - 1] = 1;
    take(run("an unused byte in the only record", last));
}

/// A last record of 1 to 31 bytes, alone and after others; what is there looks lawful, or
/// its percentage or length doesn't.
fn short(random: &mut Random, take: Take) {
    for length in 1..RECORD {
        for before in [0, 1, 2, 127, 128] {
            let mut bytes = mixed(random, before);
            let last = [record(b"POT", 23), record(b"POT", 96), vec![0; RECORD]];
            bytes.extend(&last[(length + before) % 3][..length]);
            take(run("a short last record", bytes));
        }
    }
}

/// Every percentage, and every byte as a message and as its first and last byte.
fn values(take: Take) {
    for message in [&b"A"[..], b"POT 0412", &[255; ROOM]] {
        let records = (0..=255).flat_map(|percent| record(message, percent));
        take(run("every percentage", records.collect()));
    }
    let bytes = (0..=255).flat_map(|byte| {
        let long = [&[byte], &b"Rosa canina, pot 12"[..], &[byte]].concat();
        [record(&[byte], 23), record(&long, 23)].concat()
    });
    take(run("every byte", bytes.collect()));
    let classes = CLASSES.iter().flat_map(|class| {
        let message: Vec<u8> = class.iter().copied().cycle().take(ROOM).collect();
        (1..=ROOM).flat_map(move |len| record(&message[..len], 50))
    });
    take(run("every length of every code set", classes.collect()));
}

/// Files that end at, before and behind a place where a buffer may end.
fn sizes(random: &mut Random, take: Take) {
    for size in [
        512,
        1_024,
        4_096,
        8_192,
        16_384,
        32_768,
        65_536,
        131_072,
        1 << 20,
    ] {
        let bytes = mixed(random, size / RECORD + 2);
        for len in [
            size - 32,
            size - 31,
            size - 1,
            size,
            size + 1,
            size + 31,
            size + 32,
        ] {
            take(run("sizes about a buffer's", bytes[..len].to_vec()));
        }
    }
}

/// Good records with all sorts of others among them.
fn mixed(random: &mut Random, records: usize) -> Vec<u8> {
    (0..records).flat_map(|i| any(random, i)).collect()
}

fn any(random: &mut Random, i: usize) -> Vec<u8> {
    let mut bytes = good(random, i);
    match random.below(12) {
        0 => bytes[0] = random.pick(&[0, 31, 32, 255]),
        1 => bytes[1] = random.pick(&[0, 4, 5, 95, 96, 100, 255]),
        2 => bytes[RECORD - 1] ^= 1,
        // Zeros that belong to the message are lawful.
        3 => bytes[2..].fill(0),
        4 => bytes = (0..RECORD).map(|_| random.next() as u8).collect(),
        _ => {}
    }
    bytes
}
