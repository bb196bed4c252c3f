//! A wrong conversion is found, and shown in a few steps. The wrong ones here stand against what is
//! meant, and against a replay in the old form; the core's is compared with the second program's in
//! the runs and in the properties.

use differential::convert::kinds::{converted, kind, KINDS};
use differential::convert::shrink::{shrink_to, story};
use differential::convert::{convert, convert_and_replay, meant, noise, replayed};
use differential::dice::Dice;
use differential::history::{Begin, History};
use differential::record::encode;
use differential::replay::lent::On;
use differential::replay::recording::{By, Change};
use differential::replay::Replay;
use differential::small::Small;
use differential::tally::Tally;
use differential::twin::Difference;
use milebeacon::{Envelope, ReceiptNumber, Recording, Sizes, Submission, Tables};
use second::ENTRY_BYTES;

const NOW: u64 = 1_000_000_000;

type Converter = fn(&mut [u8]);

/// Converts what is meant to be, and then spoils the entries of this kind; of those cut short, the
/// rest.
fn but(old: &mut [u8], of: &str, spoil: fn(before: &[u8], entry: &mut [u8])) {
    let before = old.to_vec();
    old.copy_from_slice(&meant(&before));
    let entries = old.chunks_exact_mut(ENTRY_BYTES);
    for (entry, before) in entries.zip(before.chunks_exact(ENTRY_BYTES)) {
        if kind(&before[..108]).starts_with(of) {
            spoil(before, entry);
        }
    }
}

/// Leaves it as it was.
fn stays(before: &[u8], entry: &mut [u8]) {
    entry.copy_from_slice(before);
}

fn accepts_stay(old: &mut [u8]) {
    but(old, "accept", stays);
}

fn disputes_stay(old: &mut [u8]) {
    but(old, "dispute", stays);
}

fn disputes_accept(old: &mut [u8]) {
    but(old, "dispute with a reason", |_, entry| {
        entry[3] = entry[3] & 1 | 4
    });
}

fn sevens_with_bit_2_stay(old: &mut [u8]) {
    but(old, "7 with bit 2", stays);
}

fn reasons_are_lost(old: &mut [u8]) {
    but(old, "dispute with a reason", |_, entry| entry[3] &= !8);
}

fn cut_entries_too(old: &mut [u8]) {
    let whole = old.len() / ENTRY_BYTES * ENTRY_BYTES;
    let cut = old[whole..].to_vec();
    old.copy_from_slice(&meant(old));
    if let Some(record) = cut.get(..108) {
        (old[whole + 2], old[whole + 3]) = converted(record);
    }
}

fn recording(replay: &Replay) -> Vec<u8> {
    let entries = replay.entries().expect("no panic");
    replay.recording(&entries).expect("no panic").bytes
}

/// Where a replay differs after the wrong conversion from one in the old form.
fn in_a_replay(replay: &Replay, wrong: Converter) -> Option<Difference> {
    let old = recording(replay);
    let mut new = old.clone();
    wrong(&mut new);
    replayed(&old, &new, &replay.tables()).err()
}

/// Where the bytes differ from those that are meant.
fn in_the_bytes(replay: &Replay, wrong: Converter) -> Option<Difference> {
    let old = recording(replay);
    let mut new = old.clone();
    wrong(&mut new);
    let differ = new != meant(&old);
    differ.then(|| Difference("other bytes than meant".to_owned()))
}

/// A long recording with this change in which the wrong conversion is found, and the same made small.
fn smallest(
    change: Change,
    wrong: Converter,
    found: fn(&Replay, Converter) -> Option<Difference>,
) -> Small<Replay> {
    for seed in 40.. {
        let dice = &mut Dice::new(seed);
        let mut history = History::replies(dice, 80);
        history.begin = Begin::Fresh;
        let replay = Replay {
            history,
            by: By::SecondInOldForm,
            change,
            place: (seed % 60) as usize,
            on: On::InUse,
            seed,
        };
        if let Some(difference) = found(&replay, wrong) {
            return shrink_to(&replay, difference, &|replay| found(replay, wrong));
        }
    }
    unreachable!("there is always another seed")
}

fn steps(small: &Small<Replay>) -> usize {
    small.inner.history.steps.len()
}

#[test]
fn replies_that_stay_take_one_step() {
    // there need be no receipt: what is malformed today was answered 32
    let small = smallest(Change::Nothing, disputes_stay, in_a_replay);
    let told = story(&small);
    assert_eq!(steps(&small), 1, "{told}");
    assert!(told.contains("entry 1: operation 8, flags 1001"), "{told}");
    let after = "by the core operation 7, flags 1001";
    assert!(told.contains(after), "{told}");
    assert!(
        told.contains("after the conversion a replay finds"),
        "{told}"
    );
    let small = smallest(Change::Nothing, sevens_with_bit_2_stay, in_a_replay);
    assert_eq!(steps(&small), 1, "{}", story(&small));
}

#[test]
fn what_becomes_another_reply_takes_a_receipt() {
    // grant to each of two, claim, and the reply
    for wrong in [accepts_stay as Converter, disputes_accept, reasons_are_lost] {
        let small = smallest(Change::Nothing, wrong, in_a_replay);
        assert!(steps(&small) <= 4, "{}", story(&small));
    }
}

#[test]
fn a_cut_entry_that_is_converted_takes_one_step() {
    let small = smallest(Change::Cut(110), cut_entries_too, in_the_bytes);
    let told = story(&small);
    assert_eq!(steps(&small), 1, "{told}");
    assert!(told.contains("entry 1: cut to 110 bytes"), "{told}");
    // a replay does not look at it
    let old = recording(&small.inner);
    let mut new = old.clone();
    cut_entries_too(&mut new);
    let tables = small.inner.tables();
    assert!(replayed(&old, &new, &tables).is_ok(), "{told}");
}

/// An old record that is told so, and what it becomes.
fn old(change: fn(&mut Submission)) -> Submission {
    let mut submission = Submission {
        flags: 1,
        ..Submission::accept(Envelope::new(NOW, 7, 1), ReceiptNumber(1))
    };
    change(&mut submission);
    submission
}

#[test]
fn each_kind_of_reply_becomes_what_the_paper_says() {
    let cases: [(fn(&mut Submission), &str, (u8, u8)); 18] = [
        (|_| {}, "accept, signed", (7, 0b0101)),
        (|s| s.flags = 0, "accept, unsigned", (7, 0b0100)),
        (|s| s.flags = 5, "7 with bit 2", (0, 0b0101)),
        (|s| s.flags = 9, "7 with bit 3", (0, 0b1001)),
        (|s| s.flags = 13, "7 with bits 2 and 3", (0, 0b1101)),
        (|s| s.flags = 3, "7 with a bit that no reply uses", (0, 3)),
        (
            |s| s.amount = 1,
            "7 with a part that it does not use",
            (0, 1),
        ),
        (|s| s.signer = 0, "7 without a signer", (0, 1)),
        (
            |s| s.expires = 0,
            "7 that expires before it is issued",
            (0, 1),
        ),
        (
            |s| (s.op, s.flags) = (8, 9),
            "dispute with a reason, signed",
            (7, 0b1001),
        ),
        (
            |s| (s.op, s.flags) = (8, 8),
            "dispute with a reason, unsigned",
            (7, 0b1000),
        ),
        (
            |s| s.op = 8,
            "dispute without a reason, signed",
            (7, 0b0001),
        ),
        (|s| (s.op, s.flags) = (8, 5), "8 with bit 2", (0, 0b0101)),
        (|s| s.op = 0, "operation 0", (0, 1)),
        (|s| s.op = 13, "operation 13, all else a close", (0, 1)),
        (|s| (s.op, s.amount) = (13, 1), "operation above 12", (0, 1)),
        (|s| s.op = 255, "operation above 12", (0, 1)),
        (|s| s.op = 4, "release", (4, 1)),
    ];
    for (change, told, meant) in cases {
        let record = encode(&old(change));
        assert_eq!((kind(&record).as_str(), converted(&record)), (told, meant));
        assert!(KINDS.contains(&told), "{told}");
        let entry = second::entry(&record, 77, u64::MAX);
        let new = convert(&entry).expect("no difference");
        assert_eq!((new[2], new[3]), meant, "{told}");
        let rest = [(0..2), (4..ENTRY_BYTES)];
        assert!(rest
            .into_iter()
            .all(|part| new[part.clone()] == entry[part]));
    }
    let mut record = encode(&old(|_| {}));
    record[0] = 0;
    assert_eq!(kind(&record), "7 with a wrong mark");
    assert_eq!(converted(&record), (0, 1));
}

#[test]
fn a_recording_that_is_meant_to_agree_agrees_and_leaves_the_number_of_today() {
    let envelope = |signer, nonce| Envelope::new(NOW, signer, nonce);
    let grants = [7, 8].map(|id| Submission::grant(envelope(1, id).by_admin(), id, 50));
    let claim = Submission {
        op: 6,
        flags: 1,
        target: 7,
        until: NOW + 300_000,
        ..Submission::grant(envelope(8, 1), 0, 0)
    };
    let dispute = old(|s| (s.op, s.flags, s.nonce) = (8, 9, 2));
    let mut world = Tables::zeros(Sizes::PROGRAM);
    let mut tables = differential::twin::lent(&mut world);
    assert_eq!(second::fresh(&mut tables), 0);
    let mut bytes = Vec::new();
    for submission in [grants[0], grants[1], claim, dispute] {
        let record = encode(&submission);
        let (number, word) = second::submit_in(second::Form::Old, &mut tables, &record);
        assert_eq!(number, 0, "{submission:?}");
        bytes.extend(second::entry(&record, 0, word));
    }
    let came_to = convert_and_replay(&bytes, &Tables::zeros(Sizes::PROGRAM)).expect("the same");
    assert_eq!((came_to.found.replayed, came_to.renumbered), (4, 1));
    assert_eq!(came_to.found.finding, milebeacon::ffi::ALL_AGREE);
    assert_eq!(came_to.unconverted.replayed, 4);
    assert_eq!(came_to.unconverted.answered.number, 3);

    // the crate's own call is the same
    let mut recording = Recording::from(bytes.clone());
    recording.convert();
    assert_eq!(recording.as_bytes(), meant(&bytes));
}

#[test]
fn bytes_by_chance_are_of_every_kind_of_reply() {
    let tally = &mut Tally::default();
    for seed in 0..3_000 {
        let came_to = noise::compare(seed, tally);
        came_to.unwrap_or_else(|difference| panic!("seed {seed}: {difference}"));
    }
    let missing = tally.conversions.kinds.missing();
    assert!(missing.is_empty(), "{missing:?}");
}
