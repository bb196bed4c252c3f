//! Request 3/13, "Month's report in exact numbers".

mod common;
use common::*;
use second::{
    add_recording, entry, submit, Added, Figure, Grid, Report, Submission, ENTRY_BYTES,
    GRID_COLUMNS, GRID_ROWS,
};

const NOW: u64 = 1_000_000;
/// Acceptance deadlines.
const WINDOW: u64 = NOW + 300_000;
/// Deadlines of escrows.
const DEADLINE: u64 = NOW + 1_000_000;
const LATE: u64 = DEADLINE + 1;

/// All the figures a report may name but the cells, in the paper's order.
const ORDER: [Figure; 5] = [
    Figure::Granted,
    Figure::Transferred,
    Figure::Released,
    Figure::Refunded,
    Figure::Expired,
];

/// A recording of these, each with a settled answer and word 0.
fn recording(submissions: &[Submission]) -> Vec<u8> {
    submissions
        .iter()
        .flat_map(|submission| entry(&bytes(submission), 0, 0))
        .collect()
}

/// What the ledger is after these, each of which settles.
#[track_caller]
fn settled(submissions: &[Submission]) -> World {
    let mut world = World::usual();
    for submission in submissions {
        world.settles(*submission);
    }
    world
}

/// Every cell is 0 but these: operation, answer and count.
fn grid(cells: &[(usize, usize, u64)]) -> Grid {
    let mut grid = [[0; GRID_COLUMNS]; GRID_ROWS];
    for &(operation, answer, count) in cells {
        grid[operation][answer] = count;
    }
    grid
}

fn sum(report: &Report) -> u128 {
    report.grid.iter().flatten().copied().map(u128::from).sum()
}

/// The five, in the paper's order.
fn five(report: &Report) -> [u64; 5] {
    [
        report.granted,
        report.transferred,
        report.released,
        report.refunded,
        report.expired,
    ]
}

fn figure(report: &mut Report, figure: Figure) -> &mut u64 {
    match figure {
        Figure::Granted => &mut report.granted,
        Figure::Transferred => &mut report.transferred,
        Figure::Released => &mut report.released,
        Figure::Refunded => &mut report.refunded,
        Figure::Expired => &mut report.expired,
        Figure::Cell { operation, answer } => &mut report.grid[operation][answer],
    }
}

fn counted(entries: u64) -> Added {
    Added::Counted {
        entries,
        cut_short: false,
    }
}

/// The report over these recordings, on usual tables that are lent for each of
/// them as the one before has left them.
#[track_caller]
fn over(recordings: &[Vec<u8>]) -> Report {
    let mut report = Report::default();
    let mut world = World::usual();
    for recording in recordings {
        let added = add_recording(&mut report, &mut world.tables(), recording);
        assert_eq!(added, counted((recording.len() / ENTRY_BYTES) as u64));
    }
    report
}

/// Every operation, all settled, by the causes that end an escrow.
fn story() -> Vec<Submission> {
    vec![
        grant(NOW, 1, 7, 50_000),
        transfer(NOW, 7, 1, 8, 700),
        open(NOW, 7, 2, 8, 1_000, DEADLINE),
        open(NOW, 7, 3, 8, 2_000, DEADLINE),
        open(NOW, 7, 4, 8, 3_000, DEADLINE),
        open(NOW, 7, 5, 8, 4_000, DEADLINE),
        open(NOW, 7, 6, 8, 5_000, DEADLINE),
        // released 1,000
        close(4, NOW, 7, 7, 1),
        // refunded 2,000
        close(5, NOW, 7, 8, 2),
        claim(NOW, 8, 1, 7, WINDOW, 3),
        auto(claim(NOW, 8, 2, 7, WINDOW, 4)),
        claim(NOW, 8, 3, 7, WINDOW, 5),
        // released 3,000
        accept(NOW, 7, 9, 1),
        // receipt 2 is accepted: released 4,000; receipt 3 expires
        sweep(WINDOW + 1, 10),
        // escrow 5 expires: 5,000
        sweep(LATE, 10),
        claim(LATE, 8, 4, 7, LATE + 300_000, 0),
        dispute(LATE, 7, 10, 4),
        caps(LATE, 2, 7, 10, 20),
        freeze(LATE, 3, 7, true),
    ]
}

fn grid_of_the_story() -> Grid {
    grid(&[
        (1, 0, 1),
        (2, 0, 1),
        (3, 0, 5),
        (4, 0, 1),
        (5, 0, 1),
        (6, 0, 4),
        // an accept and, since request 7/13, a dispute
        (7, 0, 2),
        (9, 0, 2),
        (10, 0, 1),
        (11, 0, 1),
    ])
}

#[test]
fn a_report_over_nothing_is_all_zeros() {
    // 41 columns before request 5/13; 12 rows and 42 columns before request 6/13
    assert_eq!((GRID_ROWS, GRID_COLUMNS), (13, 44));
    let report = Report::default();
    assert_eq!(report.grid, grid(&[]));
    assert_eq!(five(&report), [0; 5]);
    assert_eq!(report.named, None);
}

#[test]
fn every_operation_has_its_row_and_every_cause_its_figure() {
    settled(&story());
    let report = over(&[recording(&story())]);
    assert_eq!(report.grid, grid_of_the_story());
    assert_eq!(five(&report), [50_000, 700, 8_000, 2_000, 5_000]);
    assert_eq!(report.named, None);
}

#[test]
fn each_figure_rises_with_its_entry_alone() {
    let story = story();
    let mut figures = [0; 5];
    for (place, _) in story.iter().enumerate() {
        match place {
            0 => figures[0] = 50_000,
            1 => figures[1] = 700,
            7 => figures[2] = 1_000,
            8 => figures[3] = 2_000,
            12 => figures[2] = 4_000,
            13 => figures[2] = 8_000,
            14 => figures[4] = 5_000,
            _ => {}
        }
        let report = over(&[recording(&story[..=place])]);
        assert_eq!(five(&report), figures, "after {}", place + 1);
    }
}

#[test]
fn refusals_have_their_columns_and_move_no_credits() {
    let report = over(&[recording(&[
        grant(NOW, 1, 7, 50_000),
        grant(NOW, 1, 7, 50_000),
        grant(NOW, 2, 7, MOST + 1),
        transfer(NOW, 7, 1, 8, 50_001),
        transfer(NOW, 9, 1, 8, 5),
        transfer(NOW - 1, 7, 1, 8, 5),
        open(NOW, 7, 1, 8, 600, NOW),
        close(4, NOW, 7, 1, 1),
        close(5, NOW, 7, 1, 1),
        accept(NOW, 7, 1, 1),
        dispute(NOW, 7, 1, 1),
        sweep(NOW, 1_001),
        freeze(NOW, 3, 9, true),
        caps(NOW, 3, 7, MOST + 1, 0),
    ])]);
    let cells = [
        (1, 0, 1),
        (1, 11, 1),
        (1, 12, 1),
        (2, 17, 1),
        (2, 13, 1),
        (2, 4, 1),
        (3, 20, 1),
        (4, 27, 1),
        (5, 27, 1),
        (7, 32, 2),
        (9, 12, 1),
        (10, 16, 1),
        (11, 12, 1),
    ];
    assert_eq!(report.grid, grid(&cells));
    assert_eq!(five(&report), [50_000, 0, 0, 0, 0]);
}

#[test]
fn a_full_journal_is_column_40() {
    let mut report = Report::default();
    let mut world = World::new(2, 1, 1, 1);
    let full = recording(&[grant(NOW, 1, 7, 5), grant(NOW, 2, 7, 5), sweep(NOW, 1)]);
    let added = add_recording(&mut report, &mut world.tables(), &full);
    assert_eq!(added, counted(3));
    assert_eq!(report.grid, grid(&[(1, 0, 1), (1, 40, 1), (9, 0, 1)]));
    assert_eq!(five(&report), [5, 0, 0, 0, 0]);
}

#[test]
fn row_0_is_for_operation_bytes_that_are_no_operation() {
    for byte in 0..=255 {
        let mut record = bytes(&grant(NOW, 1, 7, 5));
        record[2] = byte;
        // no mark, so that every byte is malformed
        record[0] ^= 1;
        let report = over(&[entry(&record, 0, 0).to_vec()]);
        // 8 too since request 7/13
        let row = match byte {
            1..=7 | 9..=12 => byte,
            _ => 0,
        };
        assert_eq!(report.grid, grid(&[(usize::from(row), 3, 1)]), "{}", byte);
        assert_eq!(five(&report), [0; 5]);
    }
}

#[test]
fn a_malformed_record_is_counted_by_its_operation_byte() {
    // signer 0; bits 4 to 7; an unused part
    for (place, value) in [(12, 0), (3, 16 + 1), (68, 1)] {
        let mut record = bytes(&transfer(NOW, 7, 1, 8, 5));
        record[place] = value;
        let report = over(&[entry(&record, 3, 0).to_vec()]);
        assert_eq!(report.grid, grid(&[(2, 3, 1)]));
    }
    for byte in [0, 8, 13, 14, 128, 255] {
        let mut record = bytes(&transfer(NOW, 7, 1, 8, 5));
        record[2] = byte;
        let report = over(&[entry(&record, 3, 0).to_vec()]);
        assert_eq!(report.grid, grid(&[(0, 3, 1)]));
    }
}

#[test]
fn the_recorded_answers_are_not_looked_at() {
    let right = over(&[recording(&story())]);
    for (number, word) in [(1, 0), (3, 0), (40, 1), (43, 7), (44, 7), (255, u64::MAX)] {
        let other: Vec<u8> = story()
            .iter()
            .flat_map(|submission| entry(&bytes(submission), number, word))
            .collect();
        assert_eq!(over(&[other]), right);
    }
}

#[test]
fn each_recording_is_replayed_on_a_fresh_ledger() {
    let story = recording(&story());
    let report = over(&[story.clone(), story.clone(), Vec::new(), story.clone()]);
    let mut grid = grid_of_the_story();
    for cell in grid.iter_mut().flatten() {
        *cell *= 3;
    }
    assert_eq!(report.grid, grid);
    assert_eq!(five(&report), [150_000, 2_100, 24_000, 6_000, 15_000]);

    // whatever is lent: a ledger that is not sound
    let mut world = World::usual();
    world.header = vec![2; 8];
    let mut report = Report::default();
    add_recording(&mut report, &mut world.tables(), &story);
    assert_eq!(report, over(&[story]));
}

#[test]
fn tables_are_left_as_after_the_last_entry() {
    let story = story();
    for whole in 0..=story.len() {
        let mut world = World::usual();
        world.header = vec![77; 8];
        let recording = recording(&story[..whole]);
        let mut report = Report::default();
        let added = add_recording(&mut report, &mut world.tables(), &recording);
        assert_eq!(added, counted(whole as u64));
        assert!(world == settled(&story[..whole]));
    }
}

#[test]
fn entries_cut_short_are_neither_counted_nor_replayed() {
    let story = story();
    let all = recording(&story);
    for whole in 0..story.len() {
        let right = over(&[recording(&story[..whole])]);
        let left = settled(&story[..whole]);
        for kept in 1..ENTRY_BYTES {
            let cut = &all[..whole * ENTRY_BYTES + kept];
            let mut world = World::usual();
            let mut report = Report::default();
            let added = add_recording(&mut report, &mut world.tables(), cut);
            let entries = whole as u64;
            let cut_short = true;
            assert_eq!(added, Added::Counted { entries, cut_short });
            assert_eq!(report, right);
            assert!(world == left);
        }
    }
}

#[test]
fn after_a_cut_entry_the_next_recording_is_counted() {
    let grants = recording(&[grant(NOW, 1, 7, 5), grant(NOW, 2, 7, 6)]);
    let mut report = Report::default();
    let mut world = World::usual();
    let cut = &grants[..2 * ENTRY_BYTES - 1];
    add_recording(&mut report, &mut world.tables(), cut);
    let added = add_recording(&mut report, &mut world.tables(), &grants);
    assert_eq!(added, counted(2));
    assert_eq!(report.grid, grid(&[(1, 0, 3)]));
    assert_eq!(five(&report), [16, 0, 0, 0, 0]);
}

#[test]
fn a_grant_counts_its_amount_and_not_the_total() {
    let report = over(&[recording(&[
        grant(NOW, 1, 7, MOST),
        grant(NOW, 2, 8, 1),
        transfer(NOW, 7, 1, 8, 10),
        transfer(NOW, 8, 1, 7, 3),
    ])]);
    assert_eq!(five(&report), [MOST + 1, 13, 0, 0, 0]);
}

/// 7 has opened escrows of 1, 10, 100 and 1,000; those of 1 and 10 have claims
/// that are accepted when their time has come, that of 100 one that is not.
fn four_holds() -> Vec<Submission> {
    vec![
        grant(NOW, 1, 7, 50_000),
        open(NOW, 7, 1, 8, 1, DEADLINE),
        open(NOW, 7, 2, 8, 10, DEADLINE),
        open(NOW, 7, 3, 8, 100, DEADLINE - 1),
        open(NOW, 7, 4, 8, 1_000, DEADLINE - 1),
        auto(claim(NOW, 8, 1, 7, DEADLINE - 1, 1)),
        auto(claim(NOW, 8, 2, 7, DEADLINE - 1, 2)),
        claim(NOW, 8, 3, 7, DEADLINE - 1, 3),
    ]
}

#[test]
fn one_sweep_counts_all_that_it_releases_and_expires() {
    // by its limit: two receipts accepted, one expired, two escrows expired
    for (limit, released, expired) in [
        (1, 1, 0),
        (2, 11, 0),
        (3, 11, 0),
        (4, 11, 100),
        (5, 11, 1_100),
        (1_000, 11, 1_100),
    ] {
        let mut entries = four_holds();
        entries.push(sweep(DEADLINE, limit));
        let report = over(&[recording(&entries)]);
        assert_eq!(five(&report), [50_000, 0, released, 0, expired]);
    }
}

#[test]
fn a_release_that_is_impossible_is_not_counted() {
    // two claims on one escrow: only the first accept releases it
    let mut entries = vec![
        grant(NOW, 1, 7, 50_000),
        open(NOW, 7, 1, 8, 30, DEADLINE),
        claim(NOW, 8, 1, 7, WINDOW, 1),
        claim(NOW, 8, 2, 7, WINDOW, 1),
        accept(NOW, 7, 2, 1),
        accept(NOW, 7, 3, 2),
    ];
    settled(&entries);
    assert_eq!(five(&over(&[recording(&entries)])), [50_000, 0, 30, 0, 0]);
    // an accept when the escrow is refunded
    entries.truncate(3);
    entries.extend([close(5, NOW, 7, 2, 1), accept(NOW, 7, 3, 1)]);
    settled(&entries);
    assert_eq!(five(&over(&[recording(&entries)])), [50_000, 0, 0, 30, 0]);
    // a sweep's accept when the escrow is stale, which a second sweep then ends; the accept of
    // operation 7 comes too late for that since request 5/13
    entries.truncate(2);
    entries.push(auto(claim(NOW, 8, 1, 7, WINDOW, 1)));
    entries.extend([sweep(LATE, 1), sweep(LATE, 1)]);
    assert_eq!(settled(&entries).receipt(1)[9], 29);
    assert_eq!(five(&over(&[recording(&entries)])), [50_000, 0, 0, 0, 30]);
    // a receipt without an escrow
    let entries = [
        grant(NOW, 1, 7, 50_000),
        grant(NOW, 2, 8, 1),
        claim(NOW, 8, 1, 7, WINDOW, 0),
        accept(NOW, 7, 2, 1),
    ];
    settled(&entries);
    assert_eq!(five(&over(&[recording(&entries)])), [50_001, 0, 0, 0, 0]);
}

#[test]
fn an_escrow_that_stays_open_is_in_no_figure_but_the_grants() {
    let report = over(&[recording(&four_holds())]);
    assert_eq!(five(&report), [50_000, 0, 0, 0, 0]);
}

/// For each figure a recording whose last entry alone raises it, by so much.
fn last_entries() -> Vec<(Figure, u64, Vec<Submission>)> {
    let story = story();
    let up_to = |place: usize| story[..=place].to_vec();
    let cell = |operation, answer| Figure::Cell { operation, answer };
    let mut seen = up_to(1);
    seen.push(transfer(NOW, 7, 1, 9, 5));
    vec![
        (Figure::Granted, 50_000, up_to(0)),
        (Figure::Transferred, 700, up_to(1)),
        (Figure::Released, 1_000, up_to(7)),
        (Figure::Refunded, 2_000, up_to(8)),
        (Figure::Expired, 5_000, up_to(14)),
        (cell(1, 0), 1, up_to(0)),
        (cell(4, 0), 1, up_to(7)),
        (cell(7, 0), 1, up_to(12)),
        (cell(11, 0), 1, up_to(17)),
        (cell(2, 11), 1, seen),
    ]
}

#[test]
fn a_figure_may_be_2_to_the_64_less_1_and_no_more() {
    for (name, more, entries) in last_entries() {
        let recording = recording(&entries);
        let whole = entries.len() as u64;
        // what the entries before the last one leave
        let mut before = over(&[recording[..(entries.len() - 1) * ENTRY_BYTES].to_vec()]);
        let below = *figure(&mut before, name);
        let mut all = over(&[recording.clone()]);

        // the last one reaches 2^64 − 1
        let mut report = Report::default();
        *figure(&mut report, name) = u64::MAX - more - below;
        let mut world = World::usual();
        let added = add_recording(&mut report, &mut world.tables(), &recording);
        assert_eq!(added, counted(whole));
        *figure(&mut all, name) = u64::MAX;
        assert_eq!(report, all);

        // it would pass it by 1, or by all that it adds
        for start in [u64::MAX - more - below + 1, u64::MAX - below] {
            let mut report = Report::default();
            *figure(&mut report, name) = start;
            let mut world = World::usual();
            let added = add_recording(&mut report, &mut world.tables(), &recording);
            let entry = whole;
            let named = name;
            assert_eq!(added, Added::Stopped { entry, named });
            let mut left = before.clone();
            *figure(&mut left, name) = start + below;
            left.named = Some(name);
            assert_eq!(report, left);
        }
    }
}

#[test]
fn it_stops_before_that_entry_and_names_the_figure() {
    let story = story();
    let recording = recording(&story);
    // by so much less than 2^64: named, before the entry
    for (less, name, place) in [
        (50_000, Figure::Granted, 1),
        (700, Figure::Transferred, 2),
        (1_000, Figure::Released, 8),
        (1_001, Figure::Released, 13),
        (4_000, Figure::Released, 13),
        (4_001, Figure::Released, 14),
        (8_000, Figure::Released, 14),
        (2_000, Figure::Refunded, 9),
        (5_000, Figure::Expired, 15),
        (
            3,
            Figure::Cell {
                operation: 3,
                answer: 0,
            },
            5,
        ),
        (
            2,
            Figure::Cell {
                operation: 9,
                answer: 0,
            },
            15,
        ),
    ] {
        let mut start = Report::default();
        *figure(&mut start, name) = u64::MAX - less + 1;
        let mut report = start.clone();
        let mut world = World::usual();
        // one cut short, or none: it is not come to
        for end in [recording.len(), recording.len() - 1] {
            report.clone_from(&start);
            let added = add_recording(&mut report, &mut world.tables(), &recording[..end]);
            let entry = place as u64;
            let named = name;
            assert_eq!(added, Added::Stopped { entry, named });
        }
        assert_eq!(report.named, Some(name));
        assert_eq!(
            world.header,
            settled(&story[..place - 1]).header,
            "{:?}",
            name
        );

        // on other tables, every word of them, and every figure
        let mut world = World::usual();
        report.clone_from(&start);
        add_recording(&mut report, &mut world.tables(), &recording);
        assert!(world == settled(&story[..place - 1]));
        let mut left = over(&[recording[..(place - 1) * ENTRY_BYTES].to_vec()]);
        *figure(&mut left, name) += u64::MAX - less + 1;
        left.named = Some(name);
        assert_eq!(report, left);
    }
}

#[test]
fn before_the_first_entry_the_ledger_is_fresh() {
    let mut report = Report {
        granted: u64::MAX,
        ..Report::default()
    };
    let mut world = World::usual();
    world.header = vec![9; 8];
    let grants = recording(&[grant(NOW, 1, 7, 1)]);
    let added = add_recording(&mut report, &mut world.tables(), &grants);
    let named = Figure::Granted;
    assert_eq!(added, Added::Stopped { entry: 1, named });
    assert!(world == World::usual());
    assert_eq!(sum(&report), 0);
    assert_eq!(report.granted, u64::MAX);
}

#[test]
fn a_refusal_that_would_pass_stops_too() {
    let cell = Figure::Cell {
        operation: 0,
        answer: 3,
    };
    let mut report = Report::default();
    report.grid[0][3] = u64::MAX - 1;
    let refused = entry(&[0; 108], 3, 0);
    let twice = [&refused[..], &refused].concat();
    let mut world = World::usual();
    let added = add_recording(&mut report, &mut world.tables(), &twice);
    let (entry, named) = (2, cell);
    assert_eq!(added, Added::Stopped { entry, named });
    assert_eq!(report.grid, grid(&[(0, 3, u64::MAX)]));
    assert_eq!(report.named, Some(cell));
}

#[test]
fn of_several_the_first_is_named_and_the_cells_last() {
    let full = Report {
        grid: [[u64::MAX; GRID_COLUMNS]; GRID_ROWS],
        granted: u64::MAX,
        transferred: u64::MAX,
        released: u64::MAX,
        refunded: u64::MAX,
        expired: u64::MAX,
        named: None,
    };
    // each figure before its entry's cell
    for (place, name, operation) in [
        (0, Figure::Granted, 1),
        (1, Figure::Transferred, 2),
        (7, Figure::Released, 4),
        (8, Figure::Refunded, 5),
        (12, Figure::Released, 7),
        (13, Figure::Released, 9),
        (14, Figure::Expired, 9),
    ] {
        let entries = recording(&story()[..=place]);
        let before = over(&[entries[..place * ENTRY_BYTES].to_vec()]);
        let answer = 0;
        let cell = Figure::Cell { operation, answer };
        for (names, named) in [(vec![name, cell], name), (vec![cell], cell)] {
            let mut report = Report::default();
            for &name in &names {
                let below = *figure(&mut before.clone(), name);
                *figure(&mut report, name) = u64::MAX - below;
            }
            let added = add_recording(&mut report, &mut World::usual().tables(), &entries);
            let entry = place as u64 + 1;
            assert_eq!(added, Added::Stopped { entry, named });
            for &name in &names {
                assert_eq!(*figure(&mut report, name), u64::MAX);
            }
        }
    }

    // a sweep that releases and expires: released, expired, the cell
    let mut entries = four_holds();
    entries.push(sweep(DEADLINE, 1_000));
    let entries = recording(&entries);
    let (operation, answer) = (9, 0);
    let cell = Figure::Cell { operation, answer };
    let names = [Figure::Released, Figure::Expired, cell];
    for first in 0..3 {
        let mut report = Report::default();
        for &name in &names[first..] {
            *figure(&mut report, name) = u64::MAX;
        }
        let added = add_recording(&mut report, &mut World::usual().tables(), &entries);
        let (entry, named) = (9, names[first]);
        assert_eq!(added, Added::Stopped { entry, named });
        let mut kept = [0, 0];
        kept[0] = if first == 0 { u64::MAX } else { 0 };
        kept[1] = if first < 2 { u64::MAX } else { 0 };
        assert_eq!([report.released, report.expired], kept);
        assert_eq!(report.grid[9][0], u64::MAX);
    }

    // what does not rise is not named: the cell alone
    let mut report = full.clone();
    let malformed = entry(&[0; 108], 0, 0);
    let added = add_recording(&mut report, &mut World::usual().tables(), &malformed);
    let (operation, answer) = (0, 3);
    let named = Figure::Cell { operation, answer };
    assert_eq!(added, Added::Stopped { entry: 1, named });
    assert_eq!(
        report,
        Report {
            named: Some(named),
            ..full
        }
    );
}

#[test]
fn a_full_figure_that_does_not_rise_stops_nothing() {
    let mut start = Report {
        grid: [[u64::MAX; GRID_COLUMNS]; GRID_ROWS],
        granted: u64::MAX - 5,
        transferred: u64::MAX,
        released: u64::MAX,
        refunded: u64::MAX,
        expired: u64::MAX,
        named: None,
    };
    start.grid[1][0] = 0;
    start.grid[1][11] = 0;
    start.grid[9][0] = 0;
    let mut report = start.clone();
    // the same grant again is refused and would have passed
    let again = grant(NOW, 1, 7, 5);
    let entries = recording(&[again, again, sweep(NOW, 1)]);
    let added = add_recording(&mut report, &mut World::usual().tables(), &entries);
    assert_eq!(added, counted(3));
    let mut left = start;
    left.granted = u64::MAX;
    left.grid[1][0] = 1;
    left.grid[1][11] = 1;
    left.grid[9][0] = 1;
    assert_eq!(report, left);
    // "never wrap": the cells together may pass 2^64 − 1
    // 13 rows of 44 cells, less three
    assert_eq!(sum(&report), 569 * u128::from(u64::MAX) + 3);
}

#[test]
fn a_report_that_has_stopped_counts_nothing_more() {
    let entries = recording(&story());
    let (operation, answer) = (11, 41);
    let cell = Figure::Cell { operation, answer };
    for named in ORDER.into_iter().chain([cell]) {
        let mut report = Report {
            named: Some(named),
            ..Report::default()
        };
        let before = report.clone();
        let mut world = World::usual();
        world.header = vec![9; 8];
        let lent = world.clone();
        for recording in [&entries[..], &entries[..1], &[]] {
            let added = add_recording(&mut report, &mut world.tables(), recording);
            assert_eq!(added, Added::AlreadyStopped);
            assert_eq!(report, before);
            assert!(world == lent);
        }
    }
}

#[test]
fn once_it_has_stopped_later_recordings_are_not_read() {
    let mut report = Report {
        granted: u64::MAX - 9,
        ..Report::default()
    };
    let mut world = World::usual();
    let ten = recording(&[grant(NOW, 1, 7, 4), grant(NOW, 2, 7, 6)]);
    let one = recording(&[grant(NOW, 1, 7, 1)]);
    let added = add_recording(&mut report, &mut world.tables(), &ten);
    let named = Figure::Granted;
    assert_eq!(added, Added::Stopped { entry: 2, named });
    let left = world.clone();
    let added = add_recording(&mut report, &mut world.tables(), &one);
    assert_eq!(added, Added::AlreadyStopped);
    assert_eq!(report.granted, u64::MAX - 5);
    assert_eq!(report.grid, grid(&[(1, 0, 1)]));
    assert_eq!(report.named, Some(Figure::Granted));
    assert!(world == left);
}

#[test]
fn tables_of_a_wrong_length_are_answer_1_and_nothing_changes() {
    let entries = recording(&story());
    let rows = [1, 1_024, 4_096, 4_096, 8_192];
    for (which, (words, most)) in [8, 6, 8, 14, 8].into_iter().zip(rows).enumerate() {
        for length in [0, words - 1, words + 1, (most + 1) * words] {
            let mut world = World::usual();
            world.header = vec![9; 8];
            let table = match which {
                0 => &mut world.header,
                1 => &mut world.wallets,
                2 => &mut world.escrows,
                3 => &mut world.receipts,
                _ => &mut world.journal,
            };
            table.resize(length, 5);
            let before = world.clone();
            for named in [None, Some(Figure::Expired)] {
                let mut report = Report {
                    refunded: u64::MAX,
                    named,
                    ..Report::default()
                };
                let brought = report.clone();
                for lent in [&entries[..], &entries[..50], &[]] {
                    let added = add_recording(&mut report, &mut world.tables(), lent);
                    assert_eq!(added, Added::WrongLength);
                    assert!(world == before);
                    assert_eq!(report, brought);
                }
            }
        }
    }
}

/// The five figures by what the ledger holds at the end of a recording.
fn by_the_ledger(world: &World) -> [u64; 5] {
    let journal = world.journal.chunks(8).take(world.header[7] as usize);
    let escrows = world.escrows.chunks(8).take(world.header[5] as usize);
    let mut figures = [world.header[3], 0, 0, 0, 0];
    for row in journal {
        if row[2] == 2 {
            figures[1] += row[4];
        }
    }
    for row in escrows {
        if row[4] != 1 {
            figures[row[4] as usize] += row[2];
        }
    }
    figures
}

#[test]
fn random_recordings_add_up() {
    let mut dice = Dice(3);
    let mut report = Report::default();
    let mut grid = [[0; GRID_COLUMNS]; GRID_ROWS];
    let mut figures = [0; 5];
    let mut read = 0;
    for _ in 0..200 {
        let mut world = World::new(4, 6, 6, 24);
        let mut entries = Vec::new();
        for nonce in 0..40 {
            let now = NOW + 50_000 * nonce;
            let (signer, target) = (1 + dice.below(4), dice.below(5));
            let until = now + 300_000 + 50_000 * dice.below(6);
            let submission = match dice.below(10) {
                0 | 1 => grant(now, nonce, target, 1_000),
                2 => transfer(now, signer, nonce, target, 10),
                3 | 4 => open(now, signer, nonce, target, 1 + dice.below(99), until),
                5 => claim(now, signer, nonce, target, until, dice.below(4)),
                6 => auto(claim(now, signer, nonce, target, until, dice.below(4))),
                7 => end(&mut dice, now, signer, nonce),
                8 => close_wallet(now, nonce, target),
                _ => sweep(now, dice.below(4)),
            };
            let mut record = bytes(&submission);
            if dice.below(20) == 0 {
                record[2] = dice.below(20) as u8;
            }
            let (number, _) = submit(&mut world.tables(), &record);
            let row = match record[2] {
                operation @ (1..=7 | 9..=12) => operation,
                _ => 0,
            };
            grid[usize::from(row)][number as usize] += 1;
            entries.extend(entry(&record, dice.word() as u8, dice.word()));
            read += 1;
        }
        let mut lent = World::new(4, 6, 6, 24);
        lent.header.fill(dice.word());
        let cut_short = dice.below(2) == 0;
        if cut_short {
            entries.extend(vec![0; 1 + dice.below(ENTRY_BYTES as u64 - 1) as usize]);
        }
        let added = add_recording(&mut report, &mut lent.tables(), &entries);
        let entries = 40;
        assert_eq!(added, Added::Counted { entries, cut_short });
        assert!(lent == world);
        for (figure, more) in figures.iter_mut().zip(by_the_ledger(&world)) {
            *figure += more;
        }
        assert_eq!(five(&report), figures);
        assert_eq!(report.grid, grid);
        assert_eq!(sum(&report), read);
    }
    assert!(figures.iter().all(|&figure| figure > 0), "{:?}", figures);
    assert!(grid[12][0] > 0 && grid[12][42] > 0);
    assert!(grid[7][0] > 0 && grid[0][3] > 0);
    assert!(grid.iter().any(|row| row[43] > 0));
}

/// Release, refund, accept or dispute.
fn end(dice: &mut Dice, now: u64, signer: u64, nonce: u64) -> Submission {
    let number = 1 + dice.below(4);
    match dice.below(4) {
        0 => close(4, now, signer, nonce, number),
        1 => close(5, now, signer, nonce, number),
        2 => accept(now, signer, nonce, number),
        _ => dispute(now, signer, nonce, number),
    }
}
