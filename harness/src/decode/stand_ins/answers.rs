//! Readers whose reading is right, and whose answer or buffer is not.

use super::{faulty, Faulty};
use crate::decode::calls::{refusal, Decoded};
use crate::reader::steps::STEPS;

pub const ALL: [Faulty; 11] = [
    ("21 before 19 and 20", room_before_items),
    ("a byte written before 21", written_before_refusal),
    ("the rest of the buffer", rest_cleared),
    ("an exact buffer refused", exact_room_refused),
    ("a field kept with 21", length_kept),
    ("what lies beside the buffer", beside_the_message),
    ("the last module unseen", last_module_unseen),
    ("12 before 11", length_before_side),
    ("13 before 12", module_before_length),
    ("a side cut to 8 bits", narrow_side),
    ("turns the other way", turned_other_way),
];

reader!(room_before_items, STEPS, |asked| {
    if matches!(asked.answer.number, 19 | 20) && asked.message.is_empty() {
        asked.answer.number = 21;
    }
});
reader!(written_before_refusal, STEPS, |asked| {
    if asked.answer.number == 21 {
        if let (Some(byte), Ok(read)) = (asked.message.first_mut(), &asked.reading) {
            *byte = read.message[0];
        }
    }
});
reader!(rest_cleared, STEPS, |asked| {
    let end = asked.answer.length as usize;
    if asked.answer.number == 0 && asked.message.len() > end {
        asked.message[end] = 0;
    }
});
reader!(exact_room_refused, STEPS, |asked| {
    let answer = &mut asked.answer;
    if answer.number == 0 && answer.length > 0 && asked.message.len() == answer.length as usize {
        *answer = refusal(21);
    }
});
reader!(length_kept, STEPS, |asked| {
    if let (21, Ok(read)) = (asked.answer.number, &asked.reading) {
        asked.answer.length = read.message.len() as u32;
    }
});
reader!(beside_the_message, STEPS, |asked| {
    if asked.answer.shape == 9 {
        let place = asked.message.len();
        // One byte behind what was lent, as a careless reader would write it.
        *asked.message.as_mut_ptr().add(place) ^= 0xFF;
    }
});
reader!(last_module_unseen, STEPS, |asked| {
    if let (13, Some((_, others))) = (asked.answer.number, asked.modules.split_last()) {
        if others.iter().all(|&module| module < 3) {
            asked.answer = refusal(17);
        }
    }
});
reader!(length_before_side, STEPS, |asked| {
    let area = u64::from(asked.side).pow(2);
    if asked.answer.number == 11 && asked.modules.len() as u64 != area {
        asked.answer.number = 12;
    }
});
reader!(module_before_length, STEPS, |asked| {
    if asked.answer.number == 12 && asked.modules.iter().any(|&module| module > 2) {
        asked.answer.number = 13;
    }
});
reader!(narrow_side, STEPS, |asked| {
    if asked.side == 256 + 15 && asked.modules.len() == 225 {
        asked.answer.number = 14;
    }
});
reader!(turned_other_way, STEPS, |asked| {
    if asked.answer.number == 0 && asked.answer.position > 4 {
        asked.answer.position = 12 - asked.answer.position;
    }
});
