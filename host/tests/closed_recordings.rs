//! The closing of wallets in recordings and reports.

mod departed;

use milebeacon::{
    Added, Answer, Cell, Figure, Ledger, Named, Operation, Recorded, Recorder, Refusal, Replay,
    Report, Sizes, Submission, ENTRY_BYTES, RECORD_BYTES,
};

use departed::{admin, by, close, history, GONE, HERE};

/// Which of the entries closes a wallet, counted from 1.
const CLOSING: usize = 4;

/// A wallet is emptied and closed, and named some times more. The refusals stand beside them.
fn submissions() -> Vec<Submission> {
    let mut submissions = history().to_vec();
    submissions.extend([
        close(HERE),                                // 42: it has 500
        close(GONE),                                // the closing
        Submission::transfer(by(HERE, 1), GONE, 5), // 43
        Submission::grant(admin(2), GONE, 5),       // 43
        Submission::close(admin(3), GONE),          // 43
        Submission::close(admin(4), 0),             // 16
        Submission::close(by(HERE, 2), GONE),       // 7
    ]);
    submissions
}

const NUMBERS: [u8; 9] = [0, 0, 42, 0, 43, 43, 43, 16, 7];

fn fresh() -> Ledger {
    Ledger::new(Sizes::PROGRAM).expect("right sizes")
}

/// Their recording, as the core makes it, and the ledger that it leads to.
fn recorded() -> (Vec<u8>, Ledger) {
    let mut recording = Vec::new();
    let mut recorder = Recorder::start(fresh(), &mut recording).expect("right sizes");
    for submission in submissions() {
        let _ = recorder.settle(&submission).expect("a vector takes all");
    }
    let (ledger, _) = recorder.into_parts();
    (recording, ledger)
}

#[test]
fn a_closing_is_recorded_and_agrees() {
    let (recording, ledger) = recorded();
    let numbers: Vec<u8> = recording
        .chunks_exact(ENTRY_BYTES)
        .map(|entry| entry[RECORD_BYTES])
        .collect();
    assert_eq!(numbers, NUMBERS);
    let mut other = fresh();
    assert_eq!(
        other.replay(&recording),
        Ok(Replay::AllAgree { entries: 9 })
    );
    assert_eq!(other, ledger);
    assert!(other.wallet(GONE).is_closed());
}

#[test]
fn a_recording_in_which_operation_12_was_none_disagrees_there() {
    let (mut old, _) = recorded();
    // before there was such an operation
    old.drain(2 * ENTRY_BYTES..3 * ENTRY_BYTES);
    old[(CLOSING - 2) * ENTRY_BYTES + RECORD_BYTES] = 3;
    let disagrees = Replay::Disagrees {
        entry: 3,
        recorded: Recorded { number: 3, word: 0 },
        answered: Answer::Settled(0),
    };
    assert_eq!(fresh().replay(&old), Ok(disagrees));
    assert_eq!(
        disagrees.to_string(),
        "entry 3 disagrees: recorded 3 malformed_record, word 0; answered 0 settled, word 0"
    );
}

#[test]
fn a_report_has_a_row_for_closings_and_two_columns_more() {
    let mut report = Report::new();
    let added = report.add(&mut fresh(), &recorded().0);
    assert_eq!(added, Ok(Added::All { entries: 9 }));
    let closings = |refusal| report.count(Cell::refused(Operation::Close, refusal));
    assert_eq!(report.count(Cell::settled(Operation::Close)), 1);
    assert_eq!(closings(Refusal::NotAdmin), 1);
    assert_eq!(closings(Refusal::WalletNotFound), 1);
    assert_eq!(closings(Refusal::WalletNotEmpty), 1);
    assert_eq!(closings(Refusal::WalletClosed), 1);
    let grid = report.grid();
    assert_eq!((grid.len(), grid[0].len()), (13, 44));
    assert_eq!([7, 16, 42, 43].map(|column| grid[12][column]), [1; 4]);
    let column = |column: usize| grid.iter().map(|row| row[column]).sum::<u64>();
    assert_eq!((column(42), column(43)), (1, 3));
    assert_eq!((grid[1][43], grid[2][43]), (1, 1));
    assert_eq!(report.entries(), 9);
    // closing moves no credits
    assert_eq!(report.credits(), [500, 500, 0, 0, 0]);
}

#[test]
fn a_report_stops_before_a_closing_that_it_cannot_count() {
    let mut grid = *Report::new().grid();
    grid[12][0] = u64::MAX;
    let mut report = Report::from_parts(grid, [0; 5], None);
    let mut ledger = fresh();
    let added = report.add(&mut ledger, &recorded().0);
    let entry = Cell::settled(Operation::Close);
    let named = Named {
        figure: Figure::Cell,
        entry,
    };
    let before = CLOSING as u64;
    assert_eq!(added, Ok(Added::Stopped { before, named }));
    let told = "the count of close: 0 settled would pass 2^64 - 1";
    assert_eq!(named.to_string(), told);
    assert_eq!(report.count(entry), u64::MAX);
    assert!(ledger.wallet(GONE).is_live(), "it was not applied");
}

#[test]
fn a_malformed_closing_counts_in_its_row_and_operation_13_in_none() {
    let mut bytes = Vec::new();
    for operation in [12, 13] {
        let mut record = close(GONE).to_record().expect("well formed");
        record[2] = operation;
        record[52] = 1; // neither has an amount
        bytes.extend_from_slice(&record);
        bytes.extend_from_slice(&[0; ENTRY_BYTES - RECORD_BYTES]);
    }
    let mut report = Report::new();
    let added = report.add(&mut fresh(), &bytes);
    assert_eq!(added, Ok(Added::All { entries: 2 }));
    let malformed = Refusal::MalformedRecord;
    let counts = [
        (Cell::refused(None, malformed), 1),
        (Cell::refused(Operation::Close, malformed), 1),
    ];
    assert_eq!(report.counts().collect::<Vec<_>>(), counts);
}
