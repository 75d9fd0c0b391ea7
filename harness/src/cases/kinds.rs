//! Kinds of messages, by the code sets they go through.

use crate::random::Random;
use crate::stream::codes::{first_with, SETS};

pub struct Text {
    pub label: &'static str,
    pub message: Vec<u8>,
}

pub fn text(label: &'static str, message: Vec<u8>) -> Text {
    Text { label, message }
}

/// Bytes by the first set that has them; in the last row bytes that no set has.
pub const CLASSES: [&[u8]; 6] = [
    b" ABMYZ",
    b"abmyz",
    b"\x01\x09\x0A\x0D\x1B\x1F@\\^_`|~\x7F",
    b"!\"',-./:;?[]{}",
    b"0123456789",
    b"\x00\x0E\x1A\x80\x81\xAA\xFE\xFF",
];

/// Sentences with all pair codes in them; the maker writes none of those.
const LINES: [&[u8]; 4] = [
    b"Rosa canina, pot 12: cut back. Then wait.\r\n",
    b"SOWN 12-05, AT 07:30, BED 4. \r\n",
    b"{temp: 21.5, light: [3, 4]}\r\r\n",
    b"e-mail: Bench_4@example.org; see http://a.b/?c=~d\n",
];

pub type Kind = (&'static str, fn(&mut Random, usize) -> Vec<u8>);

pub const KINDS: [Kind; 8] = [
    ("digits", |random, len| repeated(random, b"0123456789", len)),
    ("punctuation", |random, len| {
        repeated(random, b"\r\r\n.,: !\"#$%&'()*+-/;<=>?[]{}", len)
    }),
    ("sentences", |random, len| {
        let start = random.below(40);
        let lines = std::iter::repeat_with(|| random.pick(&LINES)).flatten();
        lines.copied().skip(start).take(len).collect()
    }),
    ("garbage", |random, len| {
        (0..len).map(|_| random.next() as u8).collect()
    }),
    ("one set, then another", |random, len| {
        stretches(random, len, 12)
    }),
    ("bytes of quickly changing sets", |random, len| {
        stretches(random, len, 2)
    }),
    ("long runs and short words", |random, len| {
        stretches(random, len, 90)
    }),
    ("bytes of several sets", |random, len| {
        repeated(random, b" ,.\r0Aa@! ,.\r5Zz|]", len)
    }),
];

/// The message of turn `i`: the kinds take turns.
pub fn drawn(random: &mut Random, i: usize, len: usize) -> Text {
    let (label, kind) = KINDS[i % KINDS.len()];
    text(label, kind(random, len))
}

pub fn repeated(random: &mut Random, from: &[u8], len: usize) -> Vec<u8> {
    (0..len).map(|_| random.pick(from)).collect()
}

/// Stretches of up to `most` bytes of one class each.
fn stretches(random: &mut Random, len: usize, most: usize) -> Vec<u8> {
    let mut message = Vec::new();
    while message.len() < len {
        let class = random.pick(&CLASSES);
        let stretch = random.within(1, most);
        message.extend(repeated(random, class, stretch));
    }
    message.truncate(len);
    message
}

/// Mixed text for the bench.
pub fn mixed(len: usize) -> Vec<u8> {
    LINES.concat().into_iter().cycle().take(len).collect()
}

/// Bytes that stand in the wrong class.
pub fn faults() -> usize {
    let due = |class: usize| SETS.get(class).copied();
    let wrong = |class: usize| {
        let bytes = CLASSES[class].iter();
        let sets = bytes.map(move |&byte| first_with(byte));
        sets.filter(move |&set| set != due(class)).count()
    };
    (0..CLASSES.len()).map(wrong).sum()
}
