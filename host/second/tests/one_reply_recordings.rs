//! Request 7/13 in what stands around the core: the program, replays (1/13) and reports (3/13).

mod common;
use common::*;
use second::{
    add_recording, entry, replay, replay_in, run, Added, Figure, Form, Found, Report, Submission,
    ENTRY_BYTES,
};

const NOW: u64 = 1_000_000;
/// The acceptance deadline.
const WINDOW: u64 = NOW + 300_000;
const DEADLINE: u64 = NOW + 1_000_000;

/// Two receipts of 7, one of which is accepted, and the other is disputed.
fn story() -> Vec<Submission> {
    let accepted = accept(NOW, 7, 2, 1);
    let disputed = dispute(NOW, 7, 3, 2);
    vec![
        grant(NOW, 1, 7, 50_000),
        open(NOW, 7, 1, 8, 1_000, DEADLINE),
        claim(NOW, 8, 1, 7, WINDOW, 1),
        claim(NOW, 8, 2, 7, WINDOW, 0),
        // both buttons; what was a dispute; what was an accept
        Submission {
            flags: SIGNED | BIT2 | REASON,
            ..accepted
        },
        old(disputed),
        old(accepted),
        accepted,
        without_a_reason(disputed),
        disputed,
        accept(NOW, 7, 4, 2),
    ]
}

const ANSWERS: [(u8, u64); 11] = [
    (0, 0),
    (0, 1),
    (0, 1),
    (0, 2),
    (3, 0),
    (3, 0),
    (35, 0),
    (0, 1),
    (35, 0),
    (0, 0),
    (34, 0),
];

fn recording() -> Vec<u8> {
    story()
        .iter()
        .zip(ANSWERS)
        .flat_map(|(submission, (number, word))| entry(&raw(submission), number, word))
        .collect()
}

/// What the first of these submissions leave.
fn left_by(entries: usize) -> World {
    let mut world = World::usual();
    let whole = &recording()[..entries * ENTRY_BYTES];
    replay(&mut world.tables(), whole);
    world
}

#[test]
fn the_program_is_by_the_new_form() {
    let input: Vec<u8> = story().iter().flat_map(raw).collect();
    let mut lines = String::new();
    for (ordinal, (number, word)) in (1..).zip(ANSWERS) {
        lines.push_str(&format!("{} {} {}\n", ordinal, number, word));
    }
    lines.push_str("total 50000\n");
    assert_eq!(run(&input), lines);
}

#[test]
fn a_recording_in_the_new_form_agrees() {
    for form in [None, Some(Form::New)] {
        let mut world = World::usual();
        let found = match form {
            Some(form) => replay_in(form, &mut world.tables(), &recording()),
            None => replay(&mut world.tables(), &recording()),
        };
        assert_eq!(found, Found::AllAgree(11));
        assert_eq!(world.receipt(1)[5], 2);
        assert_eq!(world.receipt(2)[5], 3);
        assert_eq!(world.has(8), (1_000, 0));
        // Both replies are operation 7.
        assert_eq!([5, 6].map(|row| world.entry(row)[2]), [7, 7]);
    }
}

/// As it was recorded before, and the old form still agrees with it.
#[test]
fn a_recording_in_the_old_form_agrees_under_the_old_form() {
    let disputed = dispute(NOW, 7, 3, 2);
    let mut before = recording()[..4 * ENTRY_BYTES].to_vec();
    for (s, number, word) in [
        (accept(NOW, 7, 2, 1), 0, 1),
        (without_a_reason(disputed), 35, 0),
        (disputed, 0, 0),
        (accept(NOW, 7, 4, 2), 34, 0),
    ] {
        before.extend(entry(&raw(&old(s)), number, word));
    }
    let mut world = World::usual();
    let found = replay_in(Form::Old, &mut world.tables(), &before);
    assert_eq!(found, Found::AllAgree(8));
    assert_eq!(world.entry(5)[..4], [7, 2, 7, 1]);
    assert_eq!(world.entry(6)[..4], [7, 3, 8, 2]);
    // Not converted, it disagrees at the accept, which is a dispute without a reason now.
    let mut world = World::usual();
    let found = Found::Disagrees {
        entry: 5,
        recorded: (0, 1),
        answered: (35, 0),
    };
    assert_eq!(replay(&mut world.tables(), &before), found);
    assert_eq!(world.receipt(1)[5], 1);
}

/// Each form in the other's replay: the first reply that is not the same.
#[test]
fn a_recording_in_the_new_form_disagrees_under_the_old_form() {
    let mut world = World::usual();
    let found = Found::Disagrees {
        entry: 6,
        recorded: (3, 0),
        // receipt 2 is disputed
        answered: (0, 0),
    };
    let answered = replay_in(Form::Old, &mut world.tables(), &recording());
    assert_eq!(answered, found);
    assert_eq!(world.receipt(2)[5], 3);
    // Cut short and of a wrong length: as in the new form.
    let cut = &recording()[..5 * ENTRY_BYTES + 1];
    let answered = replay_in(Form::Old, &mut world.tables(), cut);
    assert_eq!(answered, Found::CutShort(5));
    world.header.push(0);
    let answered = replay_in(Form::Old, &mut world.tables(), cut);
    assert_eq!(answered, Found::WrongLength);
}

#[test]
fn both_replies_are_row_7_and_operation_8_is_row_0() {
    let mut report = Report::default();
    let added = add_recording(&mut report, &mut World::usual().tables(), &recording());
    let (entries, cut_short) = (11, false);
    assert_eq!(added, Added::Counted { entries, cut_short });
    let mut expected = Report::default();
    for (operation, answer, count) in [
        (1, 0, 1),
        (3, 0, 1),
        (6, 0, 2),
        // both buttons: the operation byte is one
        (7, 3, 1),
        (0, 3, 1),
        (7, 35, 2),
        (7, 0, 2),
        (7, 34, 1),
    ] {
        expected.grid[operation][answer] = count;
    }
    // The accept released; the dispute moved nothing.
    expected.granted = 50_000;
    expected.released = 1_000;
    assert_eq!(report, expected);
}

/// Whatever the rest of the record is: with the mark or without, and as 7 for comparison.
#[test]
fn a_byte_8_is_row_0_and_a_byte_7_is_row_7() {
    for flags in 0..=255 {
        for mark in [0xA7, 0] {
            for (op, row) in [(8, 0), (7, 7)] {
                let s = Submission {
                    op,
                    flags,
                    ..dispute(NOW, 7, 9, 1)
                };
                let mut record = raw(&s);
                record[0] = mark;
                let mut report = Report::default();
                let recording = entry(&record, 0, 0);
                add_recording(&mut report, &mut World::usual().tables(), &recording);
                let well_formed = op == 7 && mark == 0xA7 && matches!(flags, 0 | 1 | 4 | 5 | 8 | 9);
                let answer = match (well_formed, flags & SIGNED) {
                    (false, _) => 3,
                    (true, 0) => 6,
                    (true, _) => 32,
                };
                let mut expected = Report::default();
                expected.grid[row][answer] = 1;
                assert_eq!(report, expected, "{} {}", op, flags);
            }
        }
    }
}

/// The grid keeps row 8 as it was brought along, also if it is full.
#[test]
fn row_8_stays_and_does_not_rise() {
    let mut report = Report::default();
    report.grid[8] = [u64::MAX; 44];
    let mut world = World::usual();
    let added = add_recording(&mut report, &mut world.tables(), &recording());
    let (entries, cut_short) = (11, false);
    assert_eq!(added, Added::Counted { entries, cut_short });
    assert_eq!(report.grid[8], [u64::MAX; 44]);
    assert_eq!(report.grid[0][3], 1);
    // Nor do the rows after it move.
    for (row, s) in [
        (9, sweep(NOW, 5)),
        (10, freeze(NOW, 2, 0, true)),
        (11, caps(NOW, 3, 7, 5, 5)),
        (12, close_wallet(NOW, 3, 8)),
    ] {
        let mut one = report.clone();
        let number = World::usual().send(&s).0 as usize;
        one.grid[row][number] += 1;
        add_recording(&mut report, &mut world.tables(), &entry(&raw(&s), 0, 0));
        assert_eq!(report, one);
    }
}

#[test]
fn a_cell_of_row_0_or_7_may_be_2_to_the_64_less_1_and_no_more() {
    // the entry that would pass
    for (operation, answer, room, stops) in [
        (0, 3, 0, Some(6)),
        (0, 3, 1, None),
        (7, 3, 0, Some(5)),
        (7, 3, 1, None),
        (7, 0, 1, Some(10)),
        (7, 0, 2, None),
        (7, 35, 1, Some(9)),
        (7, 35, 2, None),
    ] {
        let mut report = Report::default();
        report.grid[operation][answer] = u64::MAX - room;
        let mut world = World::usual();
        let added = add_recording(&mut report, &mut world.tables(), &recording());
        assert_eq!(report.grid[operation][answer], u64::MAX);
        match stops {
            Some(entry) => {
                let named = Figure::Cell { operation, answer };
                assert_eq!(added, Added::Stopped { entry, named });
                assert!(world == left_by(entry as usize - 1));
            }
            None => {
                assert_eq!(report.named, None);
                assert!(world == left_by(11));
            }
        }
    }
}
