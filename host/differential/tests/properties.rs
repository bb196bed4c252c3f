//! Properties over inputs by proptest, which makes a failing input small. The cases are seeded:
//! `PROPTEST_CASES` asks for more of them.

use differential::codec;
use differential::convert;
use differential::dice::Dice;
use differential::history::{Begin, History};
use differential::lookups;
use differential::record::encode;
use differential::replay::lent::{On, LENGTHS};
use differential::replay::recording::{By, Change};
use differential::replay::Replay;
use differential::step::Step;
use differential::tally::Tally;
use differential::twin::{Difference, Twin, World};
use milebeacon::{Sizes, Submission};
use proptest::collection::vec;
use proptest::prelude::*;
use proptest::test_runner::{Config, RngAlgorithm, TestCaseError, TestError, TestRng, TestRunner};

/// Runs seeded cases, and panics with the smallest input that was found to fail.
fn check<S: Strategy>(strategy: S, property: impl Fn(S::Value) -> Result<(), TestCaseError>) {
    let config = Config {
        failure_persistence: None,
        ..Config::default()
    };
    let rng = TestRng::deterministic_rng(RngAlgorithm::ChaCha);
    let mut runner = TestRunner::new_with_rng(config, rng);
    match runner.run(&strategy, property) {
        Ok(()) => {}
        Err(TestError::Fail(reason, smallest)) => panic!("{reason}\nsmallest input: {smallest:#?}"),
        Err(TestError::Abort(reason)) => panic!("{reason}"),
    }
}

fn failed(difference: Difference) -> TestCaseError {
    TestCaseError::fail(difference.0)
}

/// Mostly the plain choice.
fn knob() -> impl Strategy<Value = u8> {
    prop_oneof![5 => Just(0), 1 => 0..20u8]
}

fn step() -> impl Strategy<Value = Step> {
    let what = (
        0..15u8,
        any::<u16>(),
        prop_oneof![20 => Just(0), 1 => 0..16u8],
    );
    let who = (knob(), knob(), knob(), knob());
    let how = (knob(), knob(), knob(), knob(), knob());
    (what, who, how).prop_map(|((op, pick, damage), who, how)| Step {
        op,
        tick: who.0,
        signer: who.1,
        nonce: who.2,
        window: who.3,
        target: how.0,
        amount: how.1,
        until: how.2,
        link: how.3,
        flags: how.4,
        damage,
        pick,
    })
}

fn history() -> impl Strategy<Value = History> {
    let begin = prop_oneof![
        Just(Begin::Fresh),
        Just(Begin::Lent),
        Just(Begin::NearlyFull)
    ];
    let sizes = (1..8usize, 1..8usize, 1..8usize, 1..40usize);
    (begin, sizes, any::<u64>(), vec(step(), 0..60)).prop_map(
        |(begin, (wallets, escrows, receipts, journal), seed, steps)| {
            let sizes = Sizes {
                wallets,
                escrows,
                receipts,
                journal,
            };
            History {
                begin,
                sizes,
                seed,
                steps,
            }
        },
    )
}

#[test]
fn histories() {
    check(history(), |history| {
        let played = history.play(&mut Tally::default());
        played.map(drop).map_err(|found| {
            TestCaseError::fail(format!(
                "after step {}: {}",
                found.step + 1,
                found.difference
            ))
        })
    });
}

fn replay() -> impl Strategy<Value = Replay> {
    let change = prop_oneof![
        Just(Change::Nothing),
        Just(Change::Record),
        Just(Change::Number),
        Just(Change::NumberAbove),
        Just(Change::Word),
        Just(Change::WordThenCut),
        (1..117usize).prop_map(Change::Cut),
        Just(Change::Refusals),
    ];
    let length = (0..5usize, 0..LENGTHS.len())
        .prop_map(|(table, length)| On::Length(table, LENGTHS[length]));
    let on = prop_oneof![
        3 => Just(On::Words),
        2 => Just(On::InUse),
        1 => Just(On::OtherSizes),
        1 => length,
    ];
    let by = prop_oneof![Just(By::Core), Just(By::Second)];
    (history(), by, (change, 0..60usize), on, any::<u64>()).prop_map(
        |(history, by, (change, place), on, seed)| Replay {
            history,
            by,
            change,
            place,
            on,
            seed,
        },
    )
}

#[test]
fn replays() {
    check(replay(), |replay| {
        let found = replay.compare(&mut Tally::default());
        found.map(drop).map_err(failed)
    });
}

#[test]
fn conversions() {
    let old = replay().prop_map(|replay| Replay {
        by: By::SecondInOldForm,
        ..replay
    });
    check(old, |replay| {
        let came_to = convert::compare_replay(&replay, &mut Tally::default());
        came_to.map(drop).map_err(failed)
    });
}

/// Words that are often small or at a limit.
fn word() -> impl Strategy<Value = u64> {
    prop_oneof![
        3 => 0..6u64,
        2 => any::<u64>().prop_map(|seed| Dice::new(seed).edge()),
        1 => any::<u64>(),
    ]
}

/// Tables of any lengths and words, of which many have a header that looks right.
fn tables() -> impl Strategy<Value = World> {
    let header = prop_oneof![
        3 => (0..3u64, word(), word(), 0..4u64, 0..4u64, 0..4u64, 0..4u64).prop_map(
            |(frozen, clock, granted, a, b, c, d)| vec![1, frozen, clock, granted, a, b, c, d]
        ),
        1 => vec(word(), 0..11),
    ];
    let table = |words: usize| {
        prop_oneof![
            4 => (1..4usize).prop_flat_map(move |rows| vec(word(), rows * words)),
            1 => vec(word(), 0..4 * words),
        ]
    };
    (header, table(6), table(8), table(14), table(8)).prop_map(
        |(header, wallets, escrows, receipts, journal)| World {
            header,
            wallets,
            escrows,
            receipts,
            journal,
        },
    )
}

fn fields() -> impl Strategy<Value = Submission> {
    any::<u64>().prop_map(|seed| codec::fields(&mut Dice::new(seed)))
}

#[test]
fn any_tables_and_any_records() {
    check((tables(), fields()), |(world, fields)| {
        let tally = &mut Tally::default();
        let mut twin = Twin::new(world);
        lookups::all(twin.world(), &mut Dice::new(fields.nonce), tally).map_err(failed)?;
        twin.submit(&encode(&fields), tally).map_err(failed)?;
        twin.fresh(tally).map_err(failed)?;
        twin.submit(&encode(&fields), tally)
            .map(drop)
            .map_err(failed)
    });
}

/// Entries of fields by chance, of any answers, and any bytes at the end.
fn recording() -> impl Strategy<Value = Vec<u8>> {
    let answer = (prop_oneof![Just(0), Just(3), any::<u8>()], word());
    let entry = (fields(), answer);
    let tail = prop_oneof![Just(Vec::new()), vec(any::<u8>(), 0..240)];
    (vec(entry, 0..4), tail).prop_map(|(entries, tail)| {
        let mut recording = Vec::new();
        for (fields, (number, word)) in entries {
            recording.extend(second::entry(&encode(&fields), number, word));
        }
        recording.extend(tail);
        recording
    })
}

#[test]
fn any_tables_and_any_recording() {
    check((tables(), recording()), |(world, recording)| {
        let found = Twin::new(world).replay(&recording);
        found.map(drop).map_err(failed)
    });
}

#[test]
fn any_tables_and_any_old_recording() {
    check((tables(), recording()), |(world, old)| {
        convert::convert_and_replay(&old, &world).map_err(failed)?;
        let new = convert::convert(&old).map_err(failed)?;
        prop_assert_eq!(new.len(), old.len());
        let whole = old.len() / 117 * 117;
        for place in (0..old.len()).filter(|&place| new[place] != old[place]) {
            prop_assert!(
                place < whole && matches!(place % 117, 2 | 3),
                "byte {}",
                place
            );
        }
        Ok(())
    });
}

#[test]
fn any_bytes() {
    let bytes = vec(any::<u8>(), 0..120);
    let marked = vec(any::<u8>(), 106).prop_map(|rest| [&[0xA7, 0x3C][..], &rest].concat());
    check(prop_oneof![bytes, marked], |record| {
        codec::read(&record, &mut Tally::default())
            .map(drop)
            .map_err(failed)
    });
}

#[test]
fn any_fields() {
    check((fields(), 0..220usize), |(fields, length)| {
        let tally = &mut Tally::default();
        codec::write(&fields, &mut vec![0x55; length], tally).map_err(failed)?;
        codec::write(&fields, &mut [0x55; 108], tally).map_err(failed)?;
        codec::read(&encode(&fields), tally)
            .map(drop)
            .map_err(failed)
    });
}
