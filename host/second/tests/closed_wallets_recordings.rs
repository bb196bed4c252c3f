//! Request 6/13 in what stands around the core: the program, replays (1/13) and reports (3/13).

mod common;
use common::*;
use second::{
    add_recording, entry, replay, run, Added, Figure, Found, Report, Submission, ENTRY_BYTES,
};

const NOW: u64 = 1_000_000;
const DEADLINE: u64 = NOW + 1_000_000;

/// 7's wallet is emptied and closed; what names it afterwards is refused.
fn story() -> Vec<Submission> {
    vec![
        grant(NOW, 1, 7, 1_000),
        close_wallet(NOW, 2, 7),
        open(NOW, 7, 1, 8, 1_000, DEADLINE),
        close_wallet(NOW, 2, 8),
        close(4, NOW, 7, 2, 1),
        close_wallet(NOW, 2, 9),
        Submission {
            flags: SIGNED,
            ..close_wallet(NOW, 2, 7)
        },
        close_wallet(NOW, 2, 7),
        close_wallet(NOW, 3, 7),
        grant(NOW, 3, 7, 1_000),
        transfer(NOW, 8, 1, 7, 5),
        transfer(NOW, 7, 3, 8, 5),
        freeze(NOW, 3, 7, false),
        caps(NOW, 3, 7, 5, 5),
        transfer(NOW, 8, 1, 9, 5),
    ]
}

const ANSWERS: [(u8, u64); 15] = [
    (0, 0),
    (42, 0),
    (0, 1),
    (42, 0),
    (0, 0),
    (16, 0),
    (7, 0),
    (0, 0),
    (43, 0),
    (43, 0),
    (43, 0),
    (43, 0),
    (43, 0),
    (43, 0),
    (0, 0),
];

fn recording() -> Vec<u8> {
    story()
        .iter()
        .zip(ANSWERS)
        .flat_map(|(submission, (number, word))| entry(&bytes(submission), number, word))
        .collect()
}

/// What the first of these submissions leave.
fn left_by(entries: usize) -> World {
    let mut world = World::usual();
    for submission in &story()[..entries] {
        world.send(submission);
    }
    world
}

#[test]
fn the_program_prints_42_and_43() {
    let input: Vec<u8> = story().iter().flat_map(bytes).collect();
    let mut lines = String::new();
    for (ordinal, (number, word)) in (1..).zip(ANSWERS) {
        lines.push_str(&format!("{} {} {}\n", ordinal, number, word));
    }
    lines.push_str("total 1000\n");
    assert_eq!(run(&input), lines);
}

#[test]
fn a_recording_with_closings_agrees() {
    let mut world = World::usual();
    let found = replay(&mut world.tables(), &recording());
    assert_eq!(found, Found::AllAgree(15));
    assert!(world == left_by(15));
    assert_eq!(world.frozen(7), 2);
    assert_eq!((world.has(7), world.has(8)), ((0, 0), (995, 0)));
}

/// A fresh start forgets who was closed, also on tables that say so.
#[test]
fn on_a_fresh_ledger_no_wallet_is_closed() {
    let mut world = left_by(15);
    for _ in 0..2 {
        let found = replay(&mut world.tables(), &recording());
        assert_eq!(found, Found::AllAgree(15));
    }
    let mut report = Report::default();
    let granted = entry(&bytes(&grant(NOW, 1, 7, 5)), 0, 0);
    add_recording(&mut report, &mut world.tables(), &granted);
    assert_eq!(report.granted, 5);
    assert_eq!((world.has(7), world.frozen(7)), ((5, 0), 0));
}

/// What the rules were before: operation 12 was malformed, a wallet was never closed.
#[test]
fn a_recording_of_the_rules_before_disagrees() {
    for (place, recorded) in [
        (1, (3, 0)),
        (7, (3, 0)),
        (9, (0, 0)),
        (11, (17, 0)),
        (10, (0, 0)),
        // the two mixed up, another number, another word
        (1, (43, 0)),
        (8, (42, 0)),
        (8, (44, 0)),
        (8, (41, 0)),
        (3, (41, 0)),
        (7, (0, 2)),
        (7, (0, 7)),
        (8, (43, 7)),
    ] {
        let mut wrong = recording();
        let (number, word) = recorded;
        let bytes = entry(&bytes(&story()[place]), number, word);
        wrong[place * ENTRY_BYTES..(place + 1) * ENTRY_BYTES].copy_from_slice(&bytes);
        let mut world = World::usual();
        let (answer, answer_word) = ANSWERS[place];
        let found = Found::Disagrees {
            entry: place as u64 + 1,
            recorded: (u64::from(number), word),
            answered: (u64::from(answer), answer_word),
        };
        assert_eq!(replay(&mut world.tables(), &wrong), found);
        assert!(world == left_by(place + 1));
    }
}

#[test]
fn the_grid_has_a_row_for_12_and_columns_for_42_and_43() {
    let mut report = Report::default();
    let added = add_recording(&mut report, &mut World::usual().tables(), &recording());
    let (entries, cut_short) = (15, false);
    assert_eq!(added, Added::Counted { entries, cut_short });
    let mut expected = Report::default();
    for (operation, answer, count) in [
        (1, 0, 1),
        (12, 42, 2),
        (3, 0, 1),
        (4, 0, 1),
        (12, 16, 1),
        (12, 7, 1),
        (12, 0, 1),
        (12, 43, 1),
        (1, 43, 1),
        (2, 43, 2),
        (10, 43, 1),
        (11, 43, 1),
        (2, 0, 1),
    ] {
        expected.grid[operation][answer] = count;
    }
    // Closing moves no credits.
    expected.granted = 1_000;
    expected.transferred = 5;
    expected.released = 1_000;
    assert_eq!(report, expected);
}

#[test]
fn operation_12_has_a_row_also_where_it_is_malformed() {
    // the mark; signer 0; bits 2 and 3; amount, until, link and hash
    for (place, value) in [
        (0, 0),
        (12, 0),
        (3, SIGNED | ADMIN | BIT2),
        (3, SIGNED | ADMIN | REASON),
        (52, 1),
        (60, 1),
        (68, 1),
        (107, 1),
    ] {
        let mut record = bytes(&close_wallet(NOW, 2, 7));
        record[place] = value;
        let mut report = Report::default();
        let recording = entry(&record, 3, 0);
        add_recording(&mut report, &mut World::usual().tables(), &recording);
        let mut expected = Report::default();
        expected.grid[12][3] = 1;
        assert_eq!(report, expected);
        let found = replay(&mut World::usual().tables(), &recording);
        assert_eq!(found, Found::AllAgree(1));
    }
}

#[test]
fn a_new_cell_may_be_2_to_the_64_less_1_and_no_more() {
    // the entry that would pass
    for (operation, answer, room, stops) in [
        (12, 0, 0, Some(8)),
        (12, 0, 1, None),
        (12, 42, 0, Some(2)),
        (12, 42, 1, Some(4)),
        (12, 42, 2, None),
        (12, 43, 0, Some(9)),
        (12, 43, 1, None),
        (2, 43, 1, Some(12)),
        (2, 43, 2, None),
        (12, 16, 0, Some(6)),
        (12, 7, 0, Some(7)),
    ] {
        let mut report = Report::default();
        report.grid[operation][answer] = u64::MAX - room;
        let mut world = World::usual();
        let added = add_recording(&mut report, &mut world.tables(), &recording());
        assert_eq!(report.grid[operation][answer], u64::MAX);
        match stops {
            Some(entry) => {
                let named = Figure::Cell { operation, answer };
                assert_eq!(added, Added::Stopped { entry, named });
                assert_eq!(report.named, Some(named));
                assert!(world == left_by(entry as usize - 1));
            }
            None => {
                assert_eq!(report.named, None);
                assert!(world == left_by(15));
            }
        }
    }
}
