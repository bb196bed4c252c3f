//! The bytes of records, whole and damaged.

use milebeacon::{Record, Submission, RECORD_BYTES};

use crate::dice::Dice;

/// A record of any fields, well formed or not, written by nobody's writer but this one.
pub fn encode(s: &Submission) -> Record {
    let mut record = [0; RECORD_BYTES];
    record[..4].copy_from_slice(&[0xA7, 0x3C, s.op, s.flags]);
    let envelope = [s.now, s.signer, s.nonce, s.issued, s.expires];
    let rest = [s.target, s.amount, s.until, s.link];
    let words = envelope.into_iter().chain(rest).chain(s.hash);
    for (bytes, word) in record[4..].chunks_exact_mut(8).zip(words) {
        bytes.copy_from_slice(&word.to_le_bytes());
    }
    record
}

/// The word at this place of a record, counted from 0; 0 if the record ends before.
pub fn word(record: &[u8], place: usize) -> u64 {
    let bytes = record
        .get(4..)
        .and_then(|words| words.chunks_exact(8).nth(place));
    let bytes = bytes.and_then(|bytes| bytes.try_into().ok());
    bytes.map_or(0, u64::from_le_bytes)
}

/// The record with damage of one of sixteen kinds; kind 0 is none.
pub fn damaged(mut bytes: Vec<u8>, kind: u8, dice: &mut Dice) -> Vec<u8> {
    let length = bytes.len().max(1);
    match kind {
        0 => {}
        1..=4 => flip(&mut bytes, dice.index(length), 1 << dice.below(8)),
        5 => bytes.truncate(dice.index(length)),
        6 => bytes.extend((0..=dice.below(9)).map(|k| k as u8)),
        7 => bytes.clear(),
        8 => set(&mut bytes, dice.index(length), dice.word() as u8),
        9 => set(&mut bytes, dice.index(2), dice.word() as u8),
        10 => set(&mut bytes, 2, dice.below(20) as u8),
        11 => set(&mut bytes, 3, dice.word() as u8),
        _ => {
            let place = 4 + 8 * dice.index(13);
            if let Some(word) = bytes.get_mut(place..place + 8) {
                word.copy_from_slice(&dice.edge().to_le_bytes());
            }
        }
    }
    bytes
}

fn flip(bytes: &mut [u8], place: usize, bit: u8) {
    if let Some(byte) = bytes.get_mut(place) {
        *byte ^= bit;
    }
}

fn set(bytes: &mut [u8], place: usize, value: u8) {
    if let Some(byte) = bytes.get_mut(place) {
        *byte = value;
    }
}
