//! The month's report: entries counted, and credits added up.

mod month;

use milebeacon::{
    Added, Cell, Figure, Operation, Refusal, Report, ANSWERS, ENTRY_BYTES, GRID_ROWS, RECORD_BYTES,
};

use month::{after, counts, fresh, recording, records, used, written, CREDITS};

#[test]
fn entries_are_counted_and_credits_added_up() {
    let mut report = Report::new();
    assert_eq!((report.entries(), report.counts().count()), (0, 0));
    let mut ledger = used();
    let all = recording(&records());
    let added = report.add(&mut ledger, &all).expect("right sizes");
    assert_eq!(added, Added::All { entries: 20 });
    assert_eq!((added.counted(), added.is_all()), (20, true));
    assert_eq!(added.to_string(), "counted 20 entries");
    assert_eq!(report.counts().collect::<Vec<_>>(), counts());
    assert_eq!((report.entries(), report.credits()), (20, CREDITS));
    let credits = [
        report.granted(),
        report.transferred(),
        report.released(),
        report.refunded(),
        report.expired(),
    ];
    assert_eq!(credits, CREDITS);
    assert_eq!(report.named(), None);
    assert_eq!(written(&ledger), written(&after(20)));
}

#[test]
fn recordings_are_added_one_after_the_other_each_on_a_fresh_ledger() {
    let mut report = Report::default();
    let mut ledger = fresh();
    let all = recording(&records());
    let grant = recording(&records()[..1]);
    for (recording, entries) in [(&all, 20), (&grant, 1), (&Vec::new(), 0), (&all, 20)] {
        let added = report.add(&mut ledger, recording);
        assert_eq!(added, Ok(Added::All { entries }));
    }
    let mut expected: Vec<(Cell, u64)> = counts();
    for (_, count) in &mut expected {
        *count *= 2;
    }
    expected[1].1 += 1;
    assert_eq!(report.counts().collect::<Vec<_>>(), expected);
    assert_eq!(report.credits(), [3_000, 200, 260, 60, 80]);
    assert_eq!(report.entries(), 41);
    assert_eq!(written(&ledger), written(&after(20)));
}

#[test]
fn every_cell_has_its_place_and_its_name() {
    assert_eq!((GRID_ROWS, ANSWERS), (13, Refusal::ALL.len() + 1));
    let places: Vec<_> = Cell::all()
        .map(|cell| (cell.row(), cell.column()))
        .collect();
    // row 8 is no operation's
    let rows = (0..=7).chain(9..=12);
    let expected = rows.flat_map(|row| (0..ANSWERS).map(move |column| (row, column)));
    assert_eq!(places, expected.collect::<Vec<_>>());
    let last = Cell::refused(Operation::Close, Refusal::WalletClosed);
    assert_eq!(last.to_string(), "close: 43 wallet_closed");
    assert_eq!(Cell::all().last(), Some(last));
    assert_eq!(
        (1..).zip(Figure::CREDITS).find(|(n, f)| f.number() != *n),
        None
    );
}

#[test]
fn a_record_counts_in_the_row_of_its_operation_byte() {
    for byte in 0..=255 {
        let mut record = [0; RECORD_BYTES]; // no mark, so it is malformed
        record[2] = byte;
        let mut report = Report::new();
        let added = report.add(&mut fresh(), &recording(&[record]));
        assert_eq!(added, Ok(Added::All { entries: 1 }));
        let cell = Cell::refused(Operation::from_number(byte), Refusal::MalformedRecord);
        assert_eq!(report.counts().collect::<Vec<_>>(), [(cell, 1)]);
        let row = match byte {
            8 | 13.. => 0,
            operation => operation.into(),
        };
        assert_eq!((cell.row(), report.grid()[row][3]), (row, 1), "{byte}");
        assert_eq!(report.credits(), [0; 5]);
    }
}

#[test]
fn entries_cut_short_are_not_counted() {
    let bytes = recording(&records()[..2]);
    for length in 0..=bytes.len() {
        let mut report = Report::new();
        let mut ledger = used();
        let added = report.add(&mut ledger, &bytes[..length]);
        let whole = (length / ENTRY_BYTES) as u64;
        assert_eq!(added, Ok(Added::All { entries: whole }), "{length} bytes");
        assert_eq!(report.entries(), whole.into());
        let granted = if whole > 0 { 1_000 } else { 0 };
        let transferred = if whole > 1 { 100 } else { 0 };
        assert_eq!(report.credits(), [granted, transferred, 0, 0, 0]);
        assert_eq!(written(&ledger), written(&after(whole)));
    }
}
