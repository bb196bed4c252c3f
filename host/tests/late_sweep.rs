//! A late sweep, and what a late reply meets before and after it; in recordings and reports too.

mod window;

use milebeacon::{
    Added, Answer, Cell, EscrowState, Ledger, Operation, ReceiptState, Recorded, Recorder, Refusal,
    Replay, Report, Sizes, Submission, ENTRY_BYTES, RECORD_BYTES,
};

use window::{
    accept, claim, claimed, credits, ends, hold, is_refused, replies, settles, Ends, DAY, DEADLINE,
    LATE, LONG,
};

const TWO_DAYS_LATE: u64 = DEADLINE + 2 * DAY;

/// Two days after the deadline 7 replies, and then the sweep comes, which closes so many rows. It
/// leaves the receipt, the escrow and the credits so.
fn story(held_until: u64, auto_accept: bool, swept: u64, left: (Ends, [(u64, u64); 2])) {
    let mut ledger = claimed(held_until, auto_accept);
    for reply in replies(TWO_DAYS_LATE) {
        is_refused(&mut ledger, reply, Refusal::AcceptanceClosed);
    }
    settles(&mut ledger, Submission::sweep(TWO_DAYS_LATE, 10), swept);
    assert_eq!((ends(&ledger), credits(&ledger)), left);
    for reply in replies(TWO_DAYS_LATE) {
        is_refused(&mut ledger, reply, Refusal::ReceiptNotPending);
    }
}

/// What a sweep two days late leaves.
fn swept(receipt: ReceiptState, release_code: u64, escrow: EscrowState) -> Ends {
    Ends {
        receipt,
        closed_at: TWO_DAYS_LATE,
        closing_signer: 0,
        release_code,
        escrow,
    }
}

#[test]
fn a_late_sweep_lets_the_receipt_expire_and_gives_the_hold_back() {
    let left = swept(ReceiptState::Expired, 0, EscrowState::Expired);
    story(DEADLINE, false, 2, (left, [(500, 0), (0, 0)]));
}

#[test]
fn a_late_sweep_leaves_a_hold_that_lasts() {
    let left = swept(ReceiptState::Expired, 0, EscrowState::Open);
    story(LONG, false, 1, (left, [(400, 100), (0, 0)]));
}

#[test]
fn a_late_sweep_accepts_and_pays_if_the_hold_lasts() {
    let left = swept(ReceiptState::Accepted, 0, EscrowState::Released);
    story(LONG, true, 1, (left, [(400, 0), (100, 0)]));
}

#[test]
fn a_late_sweep_accepts_and_gives_back_a_hold_that_is_over() {
    let left = swept(ReceiptState::Accepted, 29, EscrowState::Expired);
    story(DEADLINE, true, 2, (left, [(500, 0), (0, 0)]));
}

/// Hold and claim, both replies too late, a sweep, and a reply to what it has closed.
fn submissions() -> Vec<Submission> {
    let mut submissions = hold(LONG).to_vec();
    submissions.push(claim(1, DEADLINE, true));
    submissions.extend(replies(LATE));
    submissions.push(Submission::sweep(LATE, 10));
    submissions.push(accept(LATE, 7, 1));
    submissions
}

/// Their recording, as the core makes it.
fn recording() -> Vec<u8> {
    let mut recording = Vec::new();
    let ledger = Ledger::new(Sizes::PROGRAM).expect("right sizes");
    let mut recorder = Recorder::start(ledger, &mut recording).expect("right sizes");
    for submission in submissions() {
        let _ = recorder.settle(&submission).expect("a vector takes all");
    }
    recording
}

fn fresh() -> Ledger {
    Ledger::new(Sizes::PROGRAM).expect("right sizes")
}

#[test]
fn a_late_reply_is_recorded_and_agrees() {
    let recording = recording();
    let numbers: Vec<u8> = recording
        .chunks_exact(ENTRY_BYTES)
        .map(|entry| entry[RECORD_BYTES])
        .collect();
    assert_eq!(numbers, [0, 0, 0, 41, 41, 41, 0, 34]);
    let found = fresh().replay(&recording);
    assert_eq!(found, Ok(Replay::AllAgree { entries: 8 }));
}

#[test]
fn a_recording_in_which_a_late_reply_settled_disagrees_there() {
    let mut old = recording();
    let place = 3 * ENTRY_BYTES + RECORD_BYTES;
    old[place] = 0;
    old[place + 1] = 1; // the escrow that it released
    let disagrees = Replay::Disagrees {
        entry: 4,
        recorded: Recorded { number: 0, word: 1 },
        answered: Answer::Refused(Refusal::AcceptanceClosed),
    };
    assert_eq!(fresh().replay(&old), Ok(disagrees));
    assert_eq!(
        disagrees.to_string(),
        "entry 4 disagrees: recorded 0 settled, word 1; answered 41 acceptance_closed, word 0"
    );
}

#[test]
fn a_report_counts_late_replies_in_a_column_of_their_own() {
    let mut report = Report::new();
    let added = report.add(&mut fresh(), &recording());
    assert_eq!(added, Ok(Added::All { entries: 8 }));
    let late = Cell::refused(Operation::Reply, Refusal::AcceptanceClosed);
    assert_eq!(report.count(late), 3);
    assert_eq!((report.grid()[7][41], report.grid()[8][41]), (3, 0));
    let column: u64 = report.grid().iter().map(|row| row[41]).sum();
    assert_eq!(column, 3);
    let closed = Cell::refused(Operation::Reply, Refusal::ReceiptNotPending);
    assert_eq!(report.count(closed), 1);
    assert_eq!(report.entries(), 8);
    // what the late accept did not release, the sweep did
    assert_eq!(report.credits(), [500, 0, 100, 0, 0]);
}
