//! Request 5/13 in what stands around the core: the program, replays (1/13) and reports (3/13).

mod common;
use common::*;
use second::{
    add_recording, entry, replay, run, Added, Figure, Found, Report, Submission, ENTRY_BYTES,
};

const NOW: u64 = 1_000_000;
/// The acceptance deadline.
const WINDOW: u64 = NOW + 300_000;
const LATE: u64 = WINDOW + 1;
const DEADLINE: u64 = NOW + 1_000_000;

/// An accept and two disputes that come late, one of them without a reason, then the sweep that
/// pays, and an accept after it.
fn story() -> Vec<Submission> {
    vec![
        grant(NOW, 1, 7, 50_000),
        open(NOW, 7, 1, 8, 1_000, DEADLINE),
        auto(claim(NOW, 8, 1, 7, WINDOW, 1)),
        accept(LATE, 7, 2, 1),
        dispute(LATE, 7, 2, 1),
        Submission {
            flags: SIGNED,
            ..dispute(LATE, 7, 2, 1)
        },
        sweep(LATE, 5),
        accept(LATE, 7, 2, 1),
    ]
}

const ANSWERS: [(u8, u64); 8] = [
    (0, 0),
    (0, 1),
    (0, 1),
    (41, 0),
    (41, 0),
    (41, 0),
    (0, 1),
    (34, 0),
];

fn recording() -> Vec<u8> {
    story()
        .iter()
        .zip(ANSWERS)
        .flat_map(|(submission, (number, word))| entry(&bytes(submission), number, word))
        .collect()
}

/// What the first of these submissions leave.
fn left_by(entries: usize) -> World {
    let mut world = World::usual();
    for submission in &story()[..entries] {
        world.send(submission);
    }
    world
}

#[test]
fn the_program_prints_41() {
    let input: Vec<u8> = story().iter().flat_map(bytes).collect();
    let lines = "1 0 0\n2 0 1\n3 0 1\n4 41 0\n5 41 0\n6 41 0\n7 0 1\n8 34 0\ntotal 50000\n";
    assert_eq!(run(&input), lines);
}

#[test]
fn a_recording_with_41_agrees() {
    let mut world = World::usual();
    let found = replay(&mut world.tables(), &recording());
    assert_eq!(found, Found::AllAgree(8));
    assert!(world == left_by(8));
    assert_eq!(world.has(8), (1_000, 0));
}

/// What the rules were before: a late accept and a late dispute settled, a reason was asked for.
/// A full journal, another number and another word are wrong as well.
#[test]
fn a_recording_of_the_rules_before_disagrees() {
    for (place, recorded) in [
        (3, (0, 1)),
        (3, (0, 0)),
        (4, (0, 0)),
        (5, (35, 0)),
        (3, (40, 0)),
        (4, (42, 0)),
        (4, (34, 0)),
        (5, (41, 1)),
    ] {
        let mut wrong = recording();
        let record = bytes(&story()[place]);
        let (number, word) = recorded;
        let bytes = entry(&record, number, word);
        wrong[place * ENTRY_BYTES..(place + 1) * ENTRY_BYTES].copy_from_slice(&bytes);
        let mut world = World::usual();
        let found = Found::Disagrees {
            entry: place as u64 + 1,
            recorded: (u64::from(number), word),
            answered: (41, 0),
        };
        assert_eq!(replay(&mut world.tables(), &wrong), found);
        assert!(world == left_by(place));
    }
    // 41 is recorded, and another answer is given
    let mut wrong = recording();
    wrong[7 * ENTRY_BYTES + 108] = 41;
    let found = Found::Disagrees {
        entry: 8,
        recorded: (41, 0),
        answered: (34, 0),
    };
    assert_eq!(replay(&mut World::usual().tables(), &wrong), found);
}

#[test]
fn the_grid_has_a_column_for_41() {
    let mut report = Report::default();
    let added = add_recording(&mut report, &mut World::usual().tables(), &recording());
    let (entries, cut_short) = (8, false);
    assert_eq!(added, Added::Counted { entries, cut_short });
    let mut expected = Report::default();
    for (operation, answer, count) in [
        (1, 0, 1),
        (3, 0, 1),
        (6, 0, 1),
        // since request 7/13 a dispute is in the row of the accept
        (7, 41, 3),
        (9, 0, 1),
        (7, 34, 1),
    ] {
        expected.grid[operation][answer] = count;
    }
    // The late accept releases nothing; the sweep does, once.
    expected.granted = 50_000;
    expected.released = 1_000;
    assert_eq!(report, expected);
}

#[test]
fn what_is_counted_is_41_whatever_was_recorded() {
    let mut right = Report::default();
    add_recording(&mut right, &mut World::usual().tables(), &recording());
    for number in [0, 35, 40, 42, 255] {
        let mut other = recording();
        for place in 3..6 {
            other[place * ENTRY_BYTES + 108] = number;
        }
        let mut report = Report::default();
        add_recording(&mut report, &mut World::usual().tables(), &other);
        assert_eq!(report, right);
    }
}

#[test]
fn a_cell_of_41_may_be_2_to_the_64_less_1_and_no_more() {
    // an accept, two disputes: the entry that would pass
    for (room, stops) in [(0, Some(4)), (1, Some(5)), (2, Some(6)), (3, None)] {
        let operation = 7;
        let mut report = Report::default();
        report.grid[operation][41] = u64::MAX - room;
        let mut world = World::usual();
        let added = add_recording(&mut report, &mut world.tables(), &recording());
        assert_eq!(report.grid[operation][41], u64::MAX);
        match stops {
            Some(entry) => {
                let answer = 41;
                let named = Figure::Cell { operation, answer };
                assert_eq!(added, Added::Stopped { entry, named });
                assert_eq!(report.named, Some(named));
                assert_eq!(report.released, 0);
                assert!(world == left_by(entry as usize - 1));
            }
            None => {
                assert_eq!(report.named, None);
                assert_eq!(report.released, 1_000);
                assert!(world == left_by(8));
            }
        }
    }
}
