//! The reply to a claim: one operation, of which bit 2 says whether it accepts or disputes.

mod window;

use milebeacon::{
    Added, Answer, Cell, Ledger, Operation, ReceiptState, Record, Recording, Refusal, Reply,
    Report, Sizes, Submission, RECORD_BYTES,
};

use window::{
    accept, claim, claimed, dispute, ends, hold, settles, DEADLINE, LATE, LONG, NOW, REPLY,
};

/// What 7's reply to receipt 1 is answered with these flags: no signature is 6, a dispute with no
/// reason 35, and what is not here is malformed.
const ANSWERS: [(u8, u64); 6] = [(0, 6), (1, 35), (4, 6), (5, 0), (8, 6), (9, 0)];

#[test]
fn bits_0_and_2_or_3_are_a_replys_and_no_others() {
    for flags in 0..=255 {
        let expected = ANSWERS.into_iter().find(|&(known, _)| known == flags);
        let submission = Submission {
            flags,
            ..accept(NOW, 7, 1)
        };
        let mut record = accept(NOW, 7, 1).to_record().expect("well formed");
        record[3] = flags;
        let (read, written) = match expected {
            Some(_) => (Ok(submission), Ok(record)),
            None => (Err(Refusal::MalformedRecord), Err(Refusal::MalformedRecord)),
        };
        assert_eq!(Submission::read(&record), read, "{flags:#b}");
        assert_eq!(submission.to_record(), written, "{flags:#b}");
        let answer = claimed(LONG, false).submit(&record);
        let expected = expected.map_or(3, |(_, number)| number);
        assert_eq!(answer.number(), expected, "{flags:#b}");
    }
}

#[test]
fn a_reply_uses_its_target_and_nothing_else() {
    let fields = Submission {
        op: 7,
        flags: Submission::SIGNED,
        now: NOW,
        signer: 7,
        nonce: REPLY,
        issued: NOW,
        expires: NOW + 60_000,
        target: 2,
        ..Submission::default()
    };
    for (reply, flags) in [
        (accept(NOW, 7, 2), Submission::SIGNED | Submission::ACCEPT),
        (dispute(NOW, 7, 2, false), Submission::SIGNED),
        (
            dispute(NOW, 7, 2, true),
            Submission::SIGNED | Submission::REASON,
        ),
    ] {
        assert_eq!(reply, Submission { flags, ..fields });
        let record = reply.to_record().expect("well formed");
        assert_eq!(record[..4], [0xA7, 0x3C, 7, flags]);
        assert_eq!(record[44..52], [2, 0, 0, 0, 0, 0, 0, 0]);
        for place in 52..RECORD_BYTES {
            let mut torn = record;
            torn[place] = 1;
            assert_eq!(Submission::read(&torn), Err(Refusal::MalformedRecord));
        }
    }
}

#[test]
fn operation_8_is_malformed_whatever_its_flags() {
    let mut ledger = claimed(LONG, false);
    let before = ledger.clone();
    for flags in 0..=255 {
        let mut record = dispute(NOW, 7, 1, true).to_record().expect("well formed");
        record[2..4].copy_from_slice(&[8, flags]);
        let malformed = Refusal::MalformedRecord;
        assert_eq!(Submission::read(&record), Err(malformed));
        assert_eq!(ledger.submit(&record), Answer::Refused(malformed));
        let fields = Submission {
            op: 8,
            flags,
            ..dispute(NOW, 7, 1, true)
        };
        assert_eq!(fields.to_record(), Err(malformed));
        assert_eq!((fields.operation(), fields.reply()), (None, None));
    }
    assert_eq!(ledger, before);
}

#[test]
fn which_reply_it_is_can_be_asked() {
    let replies = [
        accept(NOW, 7, 1),
        dispute(NOW, 7, 1, true),
        dispute(NOW, 7, 1, false),
    ];
    let expected = [Reply::Accept, Reply::Dispute, Reply::Dispute];
    assert_eq!(replies.map(|reply| reply.reply()), expected.map(Some));
    let names = expected.map(|reply| reply.to_string());
    assert_eq!(names, ["accept", "dispute", "dispute"]);
    // bit 2 of another operation says something else
    let claim = claim(1, DEADLINE, true);
    assert!(claim.has(Submission::ACCEPT));
    assert_eq!(claim.reply(), None);
}

#[test]
fn the_journal_says_7_of_both_and_the_receipt_which() {
    for (reply, word, state) in [
        (accept(DEADLINE, 7, 1), 1, ReceiptState::Accepted),
        (dispute(DEADLINE, 7, 1, true), 0, ReceiptState::Disputed),
    ] {
        let mut ledger = claimed(LONG, false);
        settles(&mut ledger, reply, word);
        let row = ledger.journal().last().expect("what has settled");
        assert_eq!(row.words(), &[7, REPLY, 7, 1, 0, DEADLINE, word, 0]);
        assert_eq!(ends(&ledger).receipt, state);
    }
}

/// A recording of a hold and two claims, and of replies: two settle, one gives no reason, one is late,
/// and of three that are malformed one is operation 8. Its answers are anything.
fn recording() -> Recording {
    let nonce = |nonce, reply| Submission { nonce, ..reply };
    let mut submissions = hold(LONG).to_vec();
    submissions.extend([
        claim(1, DEADLINE, false),
        claim(2, DEADLINE, false),
        claim(3, DEADLINE, false),
        dispute(NOW, 7, 1, false),
        nonce(20, accept(NOW, 7, 1)),
        nonce(21, dispute(NOW, 7, 2, true)),
        nonce(22, accept(LATE, 7, 3)),
    ]);
    let records = submissions.iter().map(Submission::to_record);
    let mut records: Vec<Record> = records.map(|record| record.expect("well formed")).collect();
    for (operation, flags) in [(7, 13), (7, 3), (8, 9)] {
        let mut record = accept(NOW, 7, 3).to_record().expect("well formed");
        record[2..4].copy_from_slice(&[operation, flags]);
        records.push(record);
    }
    let mut recording = Recording::new();
    for record in &records {
        let pushed = recording.push(record, Answer::Settled(0));
        pushed.expect("whole entries");
    }
    recording
}

#[test]
fn a_report_counts_both_in_row_7_and_operation_8_in_row_0() {
    let mut report = Report::new();
    let mut ledger = Ledger::new(Sizes::PROGRAM).expect("right sizes");
    let added = report.add(&mut ledger, recording().as_bytes());
    assert_eq!(added, Ok(Added::All { entries: 12 }));
    let reply = Operation::Reply;
    let malformed = Refusal::MalformedRecord;
    let counts = [
        (Cell::refused(None, malformed), 1),
        (Cell::settled(Operation::Grant), 1),
        (Cell::settled(Operation::Open), 1),
        (Cell::settled(Operation::Claim), 3),
        (Cell::settled(reply), 2),
        (Cell::refused(reply, malformed), 2),
        (Cell::refused(reply, Refusal::DisputeReasonRequired), 1),
        (Cell::refused(reply, Refusal::AcceptanceClosed), 1),
    ];
    assert_eq!(report.counts().collect::<Vec<_>>(), counts);
    let grid = report.grid();
    assert_eq!([0, 3, 35, 41].map(|column| grid[7][column]), [2, 2, 1, 1]);
    assert_eq!((grid[0][3], grid[8]), (1, [0; 44]));
    assert_eq!(report.released(), 100);
}

#[test]
fn what_a_report_brings_along_in_row_8_stays_there() {
    let mut grid = *Report::new().grid();
    grid[8][0] = u64::MAX;
    let mut report = Report::from_parts(grid, [0; 5], None);
    let mut ledger = Ledger::new(Sizes::PROGRAM).expect("right sizes");
    let added = report.add(&mut ledger, recording().as_bytes());
    assert_eq!(added, Ok(Added::All { entries: 12 }));
    assert_eq!(report.grid()[8], grid[8]);
    assert_eq!(report.entries(), u128::from(u64::MAX) + 12);
    assert_eq!(report.counts().map(|(_, count)| count).sum::<u64>(), 12);
}
