//! Request 7/13: recordings by chance, made under the old form, with records of all operations,
//! damaged ones and wrong flags. "The result must replay with the same answers and words as the old
//! recording had under the old form".

mod common;
use common::*;
use second::{convert, entry, replay, replay_in, submit_in, Form, Found, Submission, ENTRY_BYTES};
use std::collections::BTreeMap;

const NOW: u64 = 1_000_000;
const ENTRIES: usize = 60;

fn world() -> World {
    World::new(4, 8, 8, 40)
}

/// In the old form.
fn random_submission(dice: &mut Dice, w: &World, now: u64, nonce: u64) -> Submission {
    let (signer, target) = (1 + dice.below(3), dice.below(4));
    let (escrow, receipt) = (dice.below(w.header[5] + 2), dice.below(w.header[6] + 2));
    let until = now + dice.pick(&[300_000, 400_000, 600_000]);
    let mut s = match dice.below(20) {
        0 | 1 => grant(now, nonce, target, 1_000),
        2 => transfer(now, signer, nonce, target, 10),
        3..=5 => open(now, signer, nonce, target, 20, until + 100_000),
        6 => close(4, now, signer, nonce, escrow),
        7 => close(5, now, signer, nonce, escrow),
        8..=10 => claim(now, signer, nonce, target, until, escrow),
        11 => auto(claim(now, signer, nonce, target, until, 0)),
        12..=13 => old(accept(now, signer, nonce, receipt)),
        14..=15 => old(dispute(now, signer, nonce, receipt)),
        16 => return sweep(now, dice.below(4)),
        17 => freeze(now, nonce, target, dice.below(6) == 0),
        18 => caps(now, nonce, target, 100, 1_000),
        _ => close_wallet(now, nonce, target),
    };
    if s.op == 6 && (1..=w.header[5]).contains(&s.link) {
        s.target = w.escrow(escrow as usize)[0];
        s.signer = w.escrow(escrow as usize)[1];
    }
    if matches!(s.op, 7 | 8) && (1..=w.header[6]).contains(&receipt) && dice.below(5) != 0 {
        s.signer = w.receipt(receipt as usize)[1];
    }
    s
}

/// Most stay as they are; the others get wrong flags, another operation or other bytes. Bits 2 and 3
/// of a reply are tried most often.
fn damaged(dice: &mut Dice, mut record: [u8; 108]) -> [u8; 108] {
    if matches!(record[2], 7 | 8) && dice.below(3) == 0 {
        record[3] = SIGNED | dice.pick(&[0, 4, 8, 12]) as u8;
        return record;
    }
    match dice.below(12) {
        0 | 1 => record[3] ^= 1 << dice.below(5),
        2 => record[3] = dice.word() as u8,
        3 => record[2] = dice.below(15) as u8,
        4 => record[dice.below(108) as usize] ^= 1 << dice.below(8),
        5 => record[dice.below(2) as usize] = dice.word() as u8,
        _ => {}
    }
    record
}

/// How often each operation byte was answered so under the old form.
type Seen = BTreeMap<(u8, u64), u64>;

/// The records, and what the old form answers to each of them.
fn old_run(dice: &mut Dice, seen: &mut Seen) -> (Vec<[u8; 108]>, Vec<(u64, u64)>, World) {
    let mut w = world();
    let (mut records, mut answers) = (Vec::new(), Vec::new());
    let mut now = NOW;
    for nonce in 0..ENTRIES as u64 {
        now += dice.pick(&[0, 1, 20_000, 150_000]);
        let s = random_submission(dice, &w, now, nonce);
        let record = damaged(dice, raw(&s));
        let answer = submit_in(Form::Old, &mut w.tables(), &record);
        *seen.entry((record[2], answer.0)).or_insert(0) += 1;
        records.push(record);
        answers.push(answer);
    }
    (records, answers, w)
}

/// The same but for the operation in the journal, of which 8 is 7 now.
fn with_7_for_8(w: &World) -> World {
    let mut w = w.clone();
    let written = w.header[7] as usize;
    for row in w.journal.chunks_mut(8).take(written) {
        if row[2] == 8 {
            row[2] = 7;
        }
    }
    w
}

fn one_run(seed: u64, seen: &mut Seen) {
    let mut dice = Dice(seed);
    let (records, answers, left) = old_run(&mut dice, seen);
    // Sometimes another answer is recorded, and the last entry is cut short.
    let wrong = dice.below(3 * ENTRIES as u64) as usize;
    let mut recording = Vec::new();
    for (place, (record, &(number, word))) in records.iter().zip(&answers).enumerate() {
        let number = number as u8 ^ u8::from(place == wrong);
        recording.extend(entry(record, number, word));
    }
    recording.truncate(recording.len() - dice.pick(&[0, 0, 1, 9, 10, 116]) as usize);

    let mut converted = recording.clone();
    convert(&mut converted);
    assert_eq!(converted.len(), recording.len());

    // entry by entry
    let mut w = world();
    let entries = converted.chunks_exact(ENTRY_BYTES);
    let whole = entries.len();
    assert_eq!(entries.remainder(), &recording[whole * ENTRY_BYTES..]);
    for (place, bytes) in entries.enumerate() {
        let answer = submit_in(Form::New, &mut w.tables(), &bytes[..108]);
        assert_eq!(answer, answers[place], "entry {} of {}", place + 1, seed);
        let recorded = &recording[place * ENTRY_BYTES..(place + 1) * ENTRY_BYTES];
        assert_eq!(bytes[108..], recorded[108..]);
        assert_eq!(bytes[4..108], recorded[4..108]);
    }
    if whole == ENTRIES {
        assert!(w == with_7_for_8(&left));
    }

    // and as replays
    let (mut before, mut after) = (world(), world());
    let found = replay_in(Form::Old, &mut before.tables(), &recording);
    assert_eq!(replay(&mut after.tables(), &converted), found);
    assert!(after == with_7_for_8(&before));
    match found {
        Found::Disagrees { entry, .. } => assert_eq!(entry, wrong as u64 + 1),
        Found::AllAgree(entries) => assert_eq!(entries, ENTRIES as u64),
        Found::CutShort(entries) => assert_eq!(entries, ENTRIES as u64 - 1),
        Found::WrongLength => panic!("of a right length"),
    }
}

#[test]
fn random_recordings_replay_with_the_same_answers() {
    let mut seen = Seen::new();
    for seed in 0..400 {
        one_run(seed, &mut seen);
    }
    // Of every operation some settled and some were malformed; replies were answered in every way.
    for op in 1..=12 {
        assert!(seen.contains_key(&(op, 0)), "{} in {:?}", op, seen);
        assert!(seen.contains_key(&(op, 3)), "{} in {:?}", op, seen);
    }
    for op in [0, 13, 14] {
        assert!(seen.contains_key(&(op, 3)), "{} in {:?}", op, seen);
    }
    for number in [5, 6, 32, 33, 34, 41] {
        assert!(seen.contains_key(&(7, number)), "{} in {:?}", number, seen);
        assert!(seen.contains_key(&(8, number)), "{} in {:?}", number, seen);
    }
    assert!(seen.contains_key(&(8, 35)) && !seen.contains_key(&(7, 35)));
}

/// Nor do bytes by chance panic, and what is no whole entry is left.
#[test]
fn random_bytes_never_panic() {
    let mut dice = Dice(5);
    for _ in 0..2_000 {
        let length = dice.below(4 * ENTRY_BYTES as u64) as usize;
        let before: Vec<u8> = (0..length).map(|_| dice.word() as u8).collect();
        let mut lent = before.clone();
        convert(&mut lent);
        let mut expected = before;
        for entry in expected.chunks_exact_mut(ENTRY_BYTES) {
            entry[2] = 0;
        }
        assert!(lent == expected);
    }
}
