//! Bytes by chance, as if they were a recording of the old form.

use milebeacon::{Sizes, Submission, RECORD_BYTES};
use second::ENTRY_BYTES;

use super::{convert_and_replay, Conversion};
use crate::codec;
use crate::dice::Dice;
use crate::record::{damaged, encode};
use crate::start::{noise, small_sizes};
use crate::tally::Tally;
use crate::twin::{Difference, World};

/// The most entries.
const MOST: u64 = 6;

/// The bytes of this seed: any, or entries of fields by chance with any answers and, mostly, a cut one
/// at the end.
pub fn bytes(seed: u64) -> Vec<u8> {
    let dice = &mut Dice::new(seed);
    let entries = dice.below(MOST + 1);
    if dice.once_in(6) {
        let length = dice.index(MOST as usize * ENTRY_BYTES);
        return any(length, dice);
    }
    let mut bytes = Vec::new();
    for _ in 0..entries {
        bytes.extend(entry(dice));
    }
    if dice.once_in(2) {
        let kept = dice.index(ENTRY_BYTES);
        bytes.extend(&entry(dice)[..kept]);
    }
    bytes
}

/// Any bytes, or all the same.
fn any(length: usize, dice: &mut Dice) -> Vec<u8> {
    let same = dice.pick(&[None, None, Some(0), Some(u8::MAX), Some(0xA7)]);
    (0..length)
        .map(|_| same.unwrap_or(dice.word() as u8))
        .collect()
}

/// A record of fields by chance, of which a part is well formed, and an answer that is seldom its own.
fn entry(dice: &mut Dice) -> [u8; ENTRY_BYTES] {
    let mut fields = codec::fields(dice);
    let plain = |op, flags| Submission {
        op,
        flags,
        amount: 0,
        until: 0,
        link: 0,
        hash: [0; 4],
        ..fields
    };
    match dice.below(8) {
        0..=3 => fields = plain(dice.pick(&[7, 8]), fields.flags),
        // all of a close but its number
        4 => fields = plain(13, fields.flags & 0b0011),
        _ => {}
    }
    let mut record = encode(&fields);
    let kind = dice.pick(&[0, 0, 0, 1, 8, 9, 10, 11, 12]);
    let wrong = damaged(record.to_vec(), kind, dice);
    if wrong.len() == RECORD_BYTES {
        record.copy_from_slice(&wrong);
    }
    let any = dice.word() as u8;
    let number = dice.pick(&[0, 3, 3, 32, 255, any]);
    second::entry(&record, number, dice.pick(&[0, 0, 1, u64::MAX]))
}

/// Converts and replays them on tables of this seed.
pub fn compare(seed: u64, tally: &mut Tally) -> Result<Conversion, Difference> {
    let old = bytes(seed);
    let came_to = convert_and_replay(&old, &tables(seed))?;
    tally.conversions.count(&old, &came_to);
    tally.conversions.count_noise(&old);
    Ok(came_to)
}

fn tables(seed: u64) -> World {
    let dice = &mut Dice::new(!seed);
    let sizes: Sizes = small_sizes(dice);
    noise(dice, sizes)
}
