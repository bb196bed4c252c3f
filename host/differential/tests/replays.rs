//! A wrong replay is found, and shown in a few steps. The wrong ones here stand against the second
//! program's; the core's is compared with that in the runs and in the properties.

use differential::dice::Dice;
use differential::history::{Begin, History};
use differential::replay::lent::On;
use differential::replay::recording::{By, Change};
use differential::replay::Replay;
use differential::small::{shrink_by, Small};
use differential::twin::{first_difference, lent, same, Difference, World};
use milebeacon::Sizes;
use second::{Found, ENTRY_BYTES};

type Replayer = fn(&mut World, &[u8]) -> Found;

/// Compares numbers and no words.
fn by_numbers_only(world: &mut World, recording: &[u8]) -> Found {
    let mut tables = lent(world);
    if second::fresh(&mut tables) != 0 {
        return Found::WrongLength;
    }
    let mut replayed = 0;
    for entry in recording.chunks_exact(ENTRY_BYTES) {
        replayed += 1;
        let answered = second::submit(&mut tables, &entry[..108]);
        let recorded = (u64::from(entry[108]), answered.1);
        if recorded.0 != answered.0 {
            return Found::Disagrees {
                entry: replayed,
                recorded,
                answered,
            };
        }
    }
    if recording.len() % ENTRY_BYTES == 0 {
        Found::AllAgree(replayed)
    } else {
        Found::CutShort(replayed)
    }
}

/// Replays the record of a cut entry if all of it is there.
fn cut_entry_too(world: &mut World, recording: &[u8]) -> Found {
    let found = second::replay(&mut lent(world), recording);
    if let Found::CutShort(whole) = found {
        let cut = &recording[whole as usize * ENTRY_BYTES..];
        if let Some(record) = cut.get(..108) {
            second::submit(&mut lent(world), record);
        }
    }
    found
}

/// Stops one entry after the one that disagrees.
fn one_entry_late(world: &mut World, recording: &[u8]) -> Found {
    let found = second::replay(&mut lent(world), recording);
    if let Found::Disagrees { entry, .. } = found {
        if let Some(next) = recording.chunks_exact(ENTRY_BYTES).nth(entry as usize) {
            second::submit(&mut lent(world), &next[..108]);
        }
    }
    found
}

/// Where the wrong replay differs from the right one.
fn difference(replay: &Replay, wrong: Replayer) -> Option<Difference> {
    let entries = replay.entries().expect("no panic");
    let recording = replay.recording(&entries).expect("no panic").bytes;
    let (mut one, mut other) = (replay.tables(), replay.tables());
    let right = second::replay(&mut lent(&mut other), &recording);
    same("found", wrong(&mut one, &recording), right)
        .err()
        .or_else(|| first_difference(&one, &other))
}

/// A long recording with this change in which the wrong replay is found, and the same made small.
fn smallest(change: Change, wrong: Replayer) -> Small<Replay> {
    for seed in 40.. {
        let replay = Replay {
            history: History::of(Begin::Fresh, Sizes::PROGRAM, &mut Dice::new(seed), 120),
            by: By::Second,
            change,
            place: (seed % 90) as usize,
            on: On::InUse,
            seed,
        };
        if let Some(found) = difference(&replay, wrong) {
            return shrink_by(&replay, found, &|replay| difference(replay, wrong));
        }
    }
    unreachable!("there is always another seed")
}

#[test]
fn a_word_that_is_not_compared_takes_one_step() {
    let small = smallest(Change::Word, by_numbers_only);
    let told = small.story();
    assert_eq!(small.inner.history.steps.len(), 1, "{told}");
    assert_eq!(small.inner.on, On::Words, "{told}");
    assert_eq!(small.inner.by, By::Core, "{told}");
    assert!(told.contains("entry 1: answer and word"), "{told}");
    assert!(told.contains("found: "), "{told}");
    assert!(told.lines().count() <= 7, "{told}");
}

#[test]
fn a_cut_entry_that_is_replayed_takes_one_step() {
    let small = smallest(Change::Cut(110), cut_entry_too);
    let told = small.story();
    assert_eq!(small.inner.history.steps.len(), 1, "{told}");
    assert!(told.contains("entry 1: cut to 110 bytes"), "{told}");
    assert!(told.contains("header, row 1, word"), "{told}");
}

#[test]
fn an_entry_too_many_takes_two_steps() {
    let small = smallest(Change::Number, one_entry_late);
    assert_eq!(small.inner.history.steps.len(), 2, "{}", small.story());
}
