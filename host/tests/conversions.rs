//! Recordings of the old form, turned into today's.

mod old_form;

use milebeacon::{
    Added, Answer, Cell, Envelope, Ledger, Operation, ReceiptNumber, ReceiptState, Recorded,
    Recording, Refusal, Replay, Report, Sizes, Submission, ENTRY_BYTES, RECORD_BYTES,
};

use old_form::{converted, entry, lines, recording, reply, torn, NOW, OPERATION};

fn fresh() -> Ledger {
    Ledger::new(Sizes::PROGRAM).expect("right sizes")
}

/// What converting makes of these bytes.
fn convert(bytes: impl Into<Vec<u8>>) -> Vec<u8> {
    let mut recording = Recording::from_bytes(bytes.into());
    recording.convert();
    recording.into_bytes()
}

/// Operation and flags that a record gets. Every other byte of its entry stays.
fn becomes(record: [u8; RECORD_BYTES], answer: (u8, u64)) -> (u8, u8) {
    let (old, new) = (entry(&record, answer), convert(entry(&record, answer)));
    let flags = OPERATION + 1;
    assert_eq!(new.len(), ENTRY_BYTES);
    assert_eq!(new[..OPERATION], old[..OPERATION]);
    assert_eq!(new[flags + 1..], old[flags + 1..]);
    (new[OPERATION], new[flags])
}

#[test]
fn a_recording_that_agreed_in_the_old_form_agrees_once_it_is_converted() {
    let mut ledger = fresh();
    let entries = lines().len() as u64;
    let found = ledger.replay(&convert(recording()));
    assert_eq!(found, Ok(Replay::AllAgree { entries }));
    let receipts = ledger.receipts().map(|receipt| receipt.state());
    let states = [
        ReceiptState::Accepted,
        ReceiptState::Disputed,
        ReceiptState::Accepted,
    ];
    assert_eq!(receipts.collect::<Vec<_>>(), states.map(Some));
    assert!(ledger.wallet(8).is_closed() && ledger.is_frozen());
    let journal = ledger.journal().map(|row| row.operation_word());
    let settled = [1, 3, 6, 6, 6, 11, 7, 7, 2, 12, 10];
    assert_eq!(journal.collect::<Vec<_>>(), settled);
}

#[test]
fn nothing_but_replies_and_what_was_malformed_is_touched() {
    let new = convert(recording());
    assert_eq!(new.len(), recording().len());
    for (number, (new, line)) in (1..).zip(new.chunks(ENTRY_BYTES).zip(lines())) {
        let (operation, flags) = line.becomes;
        let record = torn(line.record, OPERATION, operation);
        let expected = entry(&torn(record, OPERATION + 1, flags), line.answer);
        assert_eq!(new, expected, "entry {number}");
    }
    assert_eq!(new, converted());
}

#[test]
fn one_that_is_not_converted_disagrees_where_the_old_form_is_another() {
    let old = recording();
    let place = lines()
        .iter()
        .position(|line| (line.record[OPERATION], line.answer) == (7, (0, 1)))
        .expect("an accept that settled");
    // its operation is a dispute without a reason now
    let disagrees = Replay::Disagrees {
        entry: place as u64 + 1,
        recorded: Recorded { number: 0, word: 1 },
        answered: Answer::Refused(Refusal::DisputeReasonRequired),
    };
    assert_eq!(fresh().replay(&old), Ok(disagrees));
}

/// The flag bits of the operations of the old form. A sweep is not among them: it has no signer.
const BITS: [(u8, u8); 11] = [
    (1, 0b11),
    (2, 0b1),
    (3, 0b1),
    (4, 0b11),
    (5, 0b11),
    (6, 0b101),
    (7, 0b1),
    (8, 0b1001),
    (10, 0b111),
    (11, 0b11),
    (12, 0b11),
];

#[test]
fn operation_and_flags_decide() {
    for operation in 0..=255 {
        let bits = BITS.iter().find(|&&(known, _)| known == operation);
        for flags in 0..=255 {
            let well_formed = bits.map_or(false, |(_, bits)| flags & !bits == 0);
            let expected = match operation {
                _ if !well_formed => (0, flags),
                7 => (7, flags | 4),
                8 => (7, flags),
                other => (other, flags),
            };
            let record = reply(operation, flags, NOW, 1, 1);
            assert_eq!(becomes(record, (0, 1)), expected, "{operation}, {flags:#b}");
        }
    }
}

#[test]
fn answers_and_words_do_not_matter_and_stay() {
    for answer in [(0, 0), (3, 0), (44, 7), (255, u64::MAX)] {
        for line in lines() {
            assert_eq!(becomes(line.record, answer), line.becomes);
        }
    }
}

#[test]
fn an_entry_cut_short_stays() {
    let two: Vec<u8> = [
        entry(&reply(7, 1, NOW, 1, 1), (32, 0)),
        entry(&reply(8, 9, NOW, 2, 1), (32, 0)),
    ]
    .concat();
    let new = convert(two.clone());
    assert_eq!((&new[2..4], &new[119..121]), (&[7, 5][..], &[7, 9][..]));
    for length in 0..=two.len() {
        let whole = length - length % ENTRY_BYTES;
        let expected = [&new[..whole], &two[whole..length]].concat();
        assert_eq!(convert(&two[..length]), expected, "{length} bytes");
    }
}

#[test]
fn converting_again_is_something_else() {
    let turned = |flags| becomes(reply(7, flags, NOW, 1, 1), (0, 0));
    assert_eq!(becomes(reply(7, 1, NOW, 1, 1), (0, 0)), (7, 5));
    assert_eq!(turned(5), (0, 5)); // the accept is malformed
    assert_eq!(becomes(reply(8, 1, NOW, 1, 1), (0, 0)), (7, 1));
    assert_eq!(turned(1), (7, 5)); // the dispute accepts
    assert_ne!(convert(converted()), converted());
}

#[test]
fn a_report_of_it_has_both_replies_in_row_7_and_what_was_malformed_in_row_0() {
    let mut report = Report::new();
    let entries = lines().len() as u64;
    let added = report.add(&mut fresh(), &convert(recording()));
    assert_eq!(added, Ok(Added::All { entries }));
    let was_malformed = lines().iter().filter(|line| line.answer == (3, 0)).count();
    let noise = Cell::refused(None, Refusal::MalformedRecord);
    assert_eq!(report.count(noise), was_malformed as u64);
    assert_eq!(report.count(Cell::settled(Operation::Reply)), 2);
    let reply = |refusal| report.count(Cell::refused(Operation::Reply, refusal));
    assert_eq!(reply(Refusal::DisputeReasonRequired), 1);
    assert_eq!(reply(Refusal::ReceiptNotPending), 3);
    assert_eq!(reply(Refusal::MalformedRecord), 0);
    assert_eq!(report.grid()[8], [0; 44]);
    assert_eq!(report.released(), 100);
}

#[test]
fn todays_constructors_make_what_it_is_converted_to() {
    let (envelope, receipt) = (Envelope::new(NOW, 7, 5), ReceiptNumber(3));
    let written = |submission: Submission| submission.to_record().expect("well formed");
    for (old, new) in [
        ((7, 1), Submission::accept(envelope, receipt)),
        ((8, 1), Submission::dispute(envelope, receipt, false)),
        ((8, 9), Submission::dispute(envelope, receipt, true)),
    ] {
        let entry = convert(entry(&reply(old.0, old.1, NOW, 5, 3), (0, 0)));
        assert_eq!(entry[..RECORD_BYTES], written(new));
    }
}
