//! Request 1/13, "Replay of a ship's recording".

mod common;
use common::*;
use second::{entry, replay, submit, Found, Submission, ENTRY_BYTES};

const NOW: u64 = 1_000_000;
const DEADLINE: u64 = NOW + 1_000_000;

/// A grant, an open, the same open again, a release.
fn story() -> Vec<Submission> {
    let opened = open(NOW, 7, 1, 8, 20_000_000, DEADLINE);
    vec![
        grant(NOW, 1, 7, 50_000_000),
        opened,
        opened,
        close(4, DEADLINE, 7, 2, 1),
    ]
}

/// The recording of these on usual tables, and the tables after each entry;
/// the first are those before all.
fn recorded(submissions: &[Submission]) -> (Vec<u8>, Vec<World>) {
    let mut world = World::usual();
    let mut recording = Vec::new();
    let mut worlds = vec![world.clone()];
    for submission in submissions {
        let (number, word) = world.send(submission);
        recording.extend(entry(&bytes(submission), number as u8, word));
        worlds.push(world.clone());
    }
    (recording, worlds)
}

/// Tables of the usual sizes with a ledger in them.
fn in_use() -> World {
    let mut world = World::usual();
    world.settles(grant(5, 1, 9, 77));
    world.settles(freeze(6, 2, 0, true));
    world
}

/// What a replay on these tables finds.
fn replayed(world: &mut World, recording: &[u8]) -> Found {
    replay(&mut world.tables(), recording)
}

/// A replay on tables with another ledger's header finds this and leaves these
/// words, written or not.
#[track_caller]
fn leaves(recording: &[u8], left: &World, found: Found) {
    let mut world = World::usual();
    world.header = in_use().header;
    assert_eq!(replayed(&mut world, recording), found);
    assert!(world == *left, "other words are left");
}

#[test]
fn an_entry_is_a_record_and_its_answer() {
    let record = bytes(&grant(NOW, 1, 7, 5));
    let made = entry(&record, 40, 0x0102_0304_0506_0708);
    assert_eq!(ENTRY_BYTES, 117);
    assert_eq!(made[..108], record);
    assert_eq!(made[108..], [40, 8, 7, 6, 5, 4, 3, 2, 1]);
}

#[test]
fn what_was_recorded_on_a_fresh_ledger_agrees() {
    let (recording, worlds) = recorded(&story());
    leaves(&recording, &worlds[4], Found::AllAgree(4));
    leaves(
        &recording[..2 * ENTRY_BYTES],
        &worlds[2],
        Found::AllAgree(2),
    );
}

#[test]
fn an_empty_recording_agrees_and_leaves_a_fresh_ledger() {
    leaves(&[], &World::usual(), Found::AllAgree(0));
}

#[test]
fn the_ledger_is_started_afresh_whatever_is_lent() {
    let (recording, worlds) = recorded(&story());
    let mut world = in_use();
    assert_eq!(replayed(&mut world, &recording), Found::AllAgree(4));
    assert_eq!(world.header, worlds[4].header);
    assert_eq!(world.wallets[..12], worlds[4].wallets[..12]);
    // again, on what the first replay has left
    assert_eq!(replayed(&mut world, &recording), Found::AllAgree(4));
    // on a ledger that is not sound
    world.header = vec![2; 8];
    assert_eq!(replayed(&mut world, &recording), Found::AllAgree(4));
}

#[test]
fn every_cut_is_reported_and_not_replayed() {
    let (recording, worlds) = recorded(&story());
    for whole in 0..4 {
        for kept in 1..ENTRY_BYTES {
            let cut = &recording[..whole * ENTRY_BYTES + kept];
            leaves(cut, &worlds[whole], Found::CutShort(whole as u64));
        }
    }
}

#[test]
fn the_first_entry_that_disagrees_is_reported_with_both_answers() {
    let (recording, worlds) = recorded(&story());
    let answers = [(0, 0), (0, 1), (11, 0), (0, 0)];
    for (place, &answered) in answers.iter().enumerate() {
        let answer = place * ENTRY_BYTES + 108;
        // the number, the lowest byte of the word, the highest
        for (byte, recorded) in [
            (answer, (answered.0 ^ 1, answered.1)),
            (answer + 1, (answered.0, answered.1 ^ 1)),
            (answer + 8, (answered.0, answered.1 ^ (1 << 56))),
        ] {
            let mut wrong = recording.clone();
            wrong[byte] ^= 1;
            let entry = place as u64 + 1;
            let found = Found::Disagrees {
                entry,
                recorded,
                answered,
            };
            // what it does is done, and those after it are not replayed
            leaves(&wrong, &worlds[place + 1], found);
            wrong[3 * ENTRY_BYTES + 108] ^= 2;
            if place < 3 {
                leaves(&wrong, &worlds[place + 1], found);
                leaves(&wrong[..wrong.len() - 1], &worlds[place + 1], found);
            }
        }
    }
}

#[test]
fn a_number_that_is_no_answer_disagrees() {
    let (mut recording, worlds) = recorded(&story());
    // 41 is one since request 5/13, 42 and 43 since request 6/13
    for number in [44, 128, 255] {
        recording[2 * ENTRY_BYTES + 108] = number;
        let found = Found::Disagrees {
            entry: 3,
            recorded: (u64::from(number), 0),
            answered: (11, 0),
        };
        leaves(&recording, &worlds[3], found);
    }
}

#[test]
fn a_record_that_was_changed_disagrees_where_its_answer_does() {
    let (recording, worlds) = recorded(&story());
    // no mark: answer 3, where the grant had settled
    let mut wrong = recording.clone();
    wrong[0] ^= 1;
    let found = Found::Disagrees {
        entry: 1,
        recorded: (0, 0),
        answered: (3, 0),
    };
    leaves(&wrong, &worlds[0], found);
    // one credit more is granted: every answer is the same
    let mut other = recording;
    other[52] += 1;
    assert_eq!(replayed(&mut World::usual(), &other), Found::AllAgree(4));
}

#[test]
fn a_recording_of_refusals_leaves_a_fresh_ledger() {
    let refused = entry(&[0; 108], 3, 0);
    let unknown = entry(&bytes(&transfer(NOW, 7, 1, 8, 5)), 13, 0);
    let recording = [&refused[..], &unknown, &refused].concat();
    leaves(&recording, &World::usual(), Found::AllAgree(3));
}

#[test]
fn the_same_recording_disagrees_on_smaller_tables() {
    let (recording, _) = recorded(&story());
    let mut small = World::new(1, 8, 8, 32);
    let found = Found::Disagrees {
        entry: 2,
        recorded: (0, 1),
        answered: (37, 0),
    };
    assert_eq!(replayed(&mut small, &recording), found);
    assert_eq!(small.header, [1, 0, NOW, 50_000_000, 1, 0, 0, 1]);
}

#[test]
fn tables_of_a_wrong_length_stay_as_they_are() {
    let (recording, _) = recorded(&story());
    let rows = [1, 1_024, 4_096, 4_096, 8_192];
    for (which, (words, most)) in [8, 6, 8, 14, 8].into_iter().zip(rows).enumerate() {
        for length in [0, words - 1, words + 1, (most + 1) * words] {
            let mut world = in_use();
            let table = match which {
                0 => &mut world.header,
                1 => &mut world.wallets,
                2 => &mut world.escrows,
                3 => &mut world.receipts,
                _ => &mut world.journal,
            };
            table.resize(length, 5);
            let before = world.clone();
            for lent in [&recording[..], &recording[..50], &[]] {
                assert_eq!(replayed(&mut world, lent), Found::WrongLength);
                assert!(world == before);
            }
        }
    }
}

#[test]
fn random_recordings_agree_and_bytes_by_chance_never_panic() {
    let mut dice = Dice(13);
    for _ in 0..200 {
        let mut world = World::new(3, 3, 3, 12);
        let mut recording = Vec::new();
        for nonce in 0..40 {
            let now = NOW + 50_000 * nonce;
            let (signer, target) = (1 + dice.below(4), dice.below(5));
            let until = now + 400_000;
            let record = bytes(&match dice.below(7) {
                0 => grant(now, nonce, target, 1_000),
                1 => transfer(now, signer, nonce, target, 10),
                2 => open(now, signer, nonce, target, 20, until),
                3 => claim(now, signer, nonce, target, until, dice.below(3)),
                4 => accept(now, signer, nonce, dice.below(4)),
                5 => close_wallet(now, nonce, target),
                _ => sweep(now, dice.below(4)),
            });
            let (number, word) = submit(&mut world.tables(), &record);
            recording.extend(entry(&record, number as u8, word));
        }
        let mut other = World::new(3, 3, 3, 12);
        other.header.fill(dice.word());
        assert_eq!(replayed(&mut other, &recording), Found::AllAgree(40));
        assert!(other == world);
        for byte in recording.iter_mut() {
            *byte = dice.word() as u8;
        }
        let length = dice.below(recording.len() as u64) as usize;
        replayed(&mut other, &recording[..length]);
        assert!(other.sound());
    }
}
