//! Where the month's report stops: before an entry with which a figure would pass 2^64 - 1.

mod month;

use milebeacon::{Added, Cell, Figure, Ledger, Named, Operation, Refusal, Report};

use month::{after, counts, fresh, recording, records, used, written, CREDITS, SWEEP};

/// A report that has counted nothing but brings these credits along.
fn bringing(credits: [u64; 5]) -> Report {
    Report::from_parts(*Report::new().grid(), credits, None)
}

/// The same with one count.
fn bringing_count(credits: [u64; 5], cell: Cell, count: u64) -> Report {
    let mut grid = *Report::new().grid();
    grid[cell.row()][cell.column()] = count;
    Report::from_parts(grid, credits, None)
}

/// Adds all records to the report, which must stop before this entry and name this figure: the
/// report has the entries before it and nothing else, and so have the tables. It stays stopped.
fn stops(mut report: Report, before: u64, figure: Figure, entry: Cell) {
    let mut expected = report.clone();
    let some = recording(&records()[..before as usize - 1]);
    let counted = Added::All {
        entries: before - 1,
    };
    assert_eq!(expected.add(&mut fresh(), &some), Ok(counted));

    let mut ledger = used();
    let named = Named { figure, entry };
    let all = recording(&records());
    let stopped = Added::Stopped { before, named };
    assert_eq!(report.add(&mut ledger, &all), Ok(stopped));
    assert_eq!(stopped.counted(), before - 1);
    assert!(!stopped.is_all());
    assert_eq!(report.named(), Some(named));
    assert_eq!(report.grid(), expected.grid(), "{named}");
    assert_eq!(report.credits(), expected.credits(), "{named}");
    assert_eq!(written(&ledger), written(&after(before - 1)), "{named}");

    let (left, tables) = (report.clone(), ledger.clone());
    let nothing = Added::HadStopped { named };
    for more in [&all, &some, &Vec::new()] {
        assert_eq!(report.add(&mut ledger, more), Ok(nothing));
        assert_eq!((&report, &ledger), (&left, &tables));
    }
    assert_eq!(nothing.counted(), 0);
}

#[test]
fn a_figure_may_come_to_the_last_number_and_not_past_it() {
    let last = [
        (1, Cell::settled(Operation::Grant)),
        (2, Cell::settled(Operation::Transfer)),
        (SWEEP, Cell::settled(Operation::Sweep)),
        (12, Cell::settled(Operation::Refund)),
        (SWEEP, Cell::settled(Operation::Sweep)),
    ];
    for ((place, &figure), (before, entry)) in (0..).zip(Figure::CREDITS).zip(last) {
        let mut credits = [7; 5];
        credits[place] = u64::MAX - CREDITS[place];
        let mut report = bringing(credits);
        let added = report.add(&mut fresh(), &recording(&records()));
        assert_eq!(added, Ok(Added::All { entries: 20 }), "{figure}");
        assert_eq!(report.credits()[place], u64::MAX);

        credits[place] += 1;
        stops(bringing(credits), before, figure, entry);
    }
    // released before the sweep: by the release, and by the accept
    for (room, before, operation) in [
        (0, 10, Operation::Release),
        (19, 10, Operation::Release),
        (20, 15, Operation::Reply),
        (79, 15, Operation::Reply),
        (80, SWEEP, Operation::Sweep),
        (129, SWEEP, Operation::Sweep),
    ] {
        let report = bringing([0, 0, u64::MAX - room, 0, 0]);
        let entry = Cell::settled(operation);
        stops(report, before, Figure::Released, entry);
    }
}

#[test]
fn a_count_may_come_to_the_last_number_and_not_past_it() {
    for (cell, count) in counts() {
        let mut report = bringing_count([0; 5], cell, u64::MAX - count);
        let added = report.add(&mut fresh(), &recording(&records()));
        assert_eq!(added, Ok(Added::All { entries: 20 }), "{cell}");
        assert_eq!(report.count(cell), u64::MAX);
        let others = u128::from(20 - count);
        assert_eq!(report.entries(), u128::from(u64::MAX) + others);
    }
    let full = [
        (1, Cell::settled(Operation::Grant)),
        (3, Cell::settled(Operation::Open)),
        (8, Cell::refused(Operation::Grant, Refusal::NonceSeen)),
        (SWEEP, Cell::settled(Operation::Sweep)),
        (
            19,
            Cell::refused(Operation::Transfer, Refusal::MalformedRecord),
        ),
        (20, Cell::refused(None, Refusal::MalformedRecord)),
    ];
    for (before, cell) in full {
        let report = bringing_count([0; 5], cell, u64::MAX);
        stops(report, before, Figure::Cell, cell);
    }
    let report = bringing_count([0; 5], Cell::settled(Operation::Open), u64::MAX - 4);
    stops(report, 7, Figure::Cell, Cell::settled(Operation::Open));
}

#[test]
fn of_several_the_first_is_named_and_a_count_last() {
    let sweep = Cell::settled(Operation::Sweep);
    let both = [0, 0, u64::MAX - 129, 0, u64::MAX - 39];
    stops(bringing(both), SWEEP, Figure::Released, sweep);
    let expired = [0, 0, u64::MAX - 130, 0, u64::MAX - 39];
    stops(bringing(expired), SWEEP, Figure::Expired, sweep);
    let full = |credits| bringing_count(credits, sweep, u64::MAX);
    stops(full(both), SWEEP, Figure::Released, sweep);
    stops(full(expired), SWEEP, Figure::Expired, sweep);
    stops(full([0; 5]), SWEEP, Figure::Cell, sweep);

    // a figure that is full does not stop entries that do not add to it
    let grant = Cell::settled(Operation::Grant);
    let report = bringing_count([u64::MAX; 5], grant, u64::MAX);
    stops(report, 1, Figure::Granted, grant);
    let full = [0, u64::MAX, u64::MAX, u64::MAX, u64::MAX];
    let transfer = Cell::settled(Operation::Transfer);
    stops(bringing(full), 2, Figure::Transferred, transfer);
}

#[test]
fn tables_of_a_wrong_length_are_refused_and_all_stays() {
    let all = recording(&records());
    let named = Named {
        figure: Figure::Granted,
        entry: Cell::settled(Operation::Grant),
    };
    let stopped = Report::from_parts(*Report::new().grid(), [5; 5], Some(named));
    let whole = after(20).into_tables();
    for table in 0..5 {
        for longer in [false, true] {
            let mut tables = whole.clone();
            let torn = [
                &mut tables.header,
                &mut tables.wallets,
                &mut tables.escrows,
                &mut tables.receipts,
                &mut tables.journal,
            ];
            let torn = torn.into_iter().nth(table).expect("one of five");
            let length = torn.len();
            torn.resize(if longer { length + 1 } else { length - 1 }, 5);
            let before = tables.clone();
            let mut ledger = Ledger::over(tables);
            for report in [Report::new(), stopped.clone()] {
                let mut left = report.clone();
                assert_eq!(left.add(&mut ledger, &all), Err(Refusal::BadTable));
                assert_eq!(left, report);
                assert_eq!(ledger.tables(), before.as_ref());
            }
        }
    }
}
