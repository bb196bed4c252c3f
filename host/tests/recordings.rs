//! Recordings: written while settling, read back, and replayed.

use milebeacon::{
    Answer, Claim, Entries, Envelope, EscrowNumber, Ledger, ReceiptNumber, Record, Recorded,
    Recorder, Recording, Refusal, Replay, Sizes, Submission, Tables, ENTRY_BYTES, RECORD_BYTES,
};

const NOW: u64 = 1_700_000_000_000;
const HOUR: u64 = 3_600_000;
const SIZES: Sizes = Sizes {
    wallets: 4,
    escrows: 3,
    receipts: 2,
    journal: 8,
};

fn fresh() -> Ledger {
    Ledger::new(SIZES).expect("right sizes")
}

/// Records that settle, with words and without, are refused, or are no records at all.
fn records() -> Vec<Record> {
    let open = Submission::open(Envelope::new(NOW, 7, 1), 8, 20, NOW + HOUR);
    let claim = Claim {
        requester: 7,
        until: NOW + HOUR,
        escrow: Some(EscrowNumber(1)),
        hash: [3; 32],
        auto_accept: false,
    };
    let submissions = [
        Submission::grant(Envelope::new(NOW, 1, 1).by_admin(), 7, 50),
        open,
        open,
        Submission::claim(Envelope::new(NOW, 8, 1), claim),
        Submission::accept(Envelope::new(NOW, 7, 2), ReceiptNumber(1)),
        Submission::transfer(Envelope::new(NOW, 7, 3), 9, 31),
        Submission::sweep(NOW + 1, 10),
    ];
    let mut records: Vec<Record> = submissions
        .iter()
        .map(|submission| submission.to_record().expect("well formed"))
        .collect();
    records.push([0xEE; RECORD_BYTES]);
    records
}

/// The answers that these records get, by the rules.
const ANSWERS: [(u8, u64); 8] = [
    (0, 0),
    (0, 1),
    (11, 0),
    (0, 1),
    (0, 1),
    (17, 0),
    (0, 0),
    (3, 0),
];

/// The recording of the records, and the ledger that they lead to.
fn recorded() -> (Recording, Ledger) {
    let mut recorder = Recorder::start(fresh(), Vec::new()).expect("right sizes");
    for record in records() {
        let _ = recorder.submit(&record).expect("a vector takes all");
    }
    let (ledger, bytes) = recorder.into_parts();
    (Recording::from_bytes(bytes), ledger)
}

/// The ledger after the first of the records.
fn after(count: usize) -> Ledger {
    let mut ledger = fresh();
    for record in &records()[..count] {
        let _ = ledger.submit(record);
    }
    ledger
}

/// A ledger that has seen something else, of which a replay must leave no trace.
fn used() -> Ledger {
    let mut ledger = fresh();
    let other = Submission::grant(Envelope::new(NOW + HOUR, 2, 9).by_admin(), 77, 5);
    assert!(ledger.settle(&other).is_settled());
    ledger
}

/// The words that count: the header, and the rows written.
fn written(ledger: &Ledger) -> Vec<Vec<u64>> {
    let header = ledger.tables().header.to_vec();
    let rows = ledger.wallets().map(|row| row.words().to_vec());
    let rows = rows.chain(ledger.escrows().map(|row| row.words().to_vec()));
    let rows = rows.chain(ledger.receipts().map(|row| row.words().to_vec()));
    let rows = rows.chain(ledger.journal().map(|row| row.words().to_vec()));
    [header].into_iter().chain(rows).collect()
}

#[test]
fn a_recording_holds_what_was_submitted_and_answered() {
    let (recording, ledger) = recorded();
    assert_eq!(recording.len(), ANSWERS.len());
    assert_eq!(recording.cut(), b"");
    assert_eq!(ledger, after(ANSWERS.len()));
    let mut pushed = Recording::new();
    let lines = recording.entries().zip(records()).zip(ANSWERS);
    for ((entry, record), (number, word)) in lines {
        assert_eq!(entry.record, &record);
        assert_eq!(entry.recorded, Recorded { number, word });
        let answer = entry.recorded.answer().expect("an answer");
        pushed.push(entry.record, answer).expect("whole entries");
    }
    assert_eq!(pushed, recording);
    // byte by byte, where an answer has a word
    let second = &recording.as_bytes()[ENTRY_BYTES..2 * ENTRY_BYTES];
    assert_eq!(second[..RECORD_BYTES], records()[1]);
    assert_eq!(second[RECORD_BYTES..], [0, 1, 0, 0, 0, 0, 0, 0, 0]);
}

#[test]
fn own_recordings_agree_and_lead_to_the_same_ledger() {
    let (recording, ledger) = recorded();
    let mut replayed = used();
    let found = replayed.replay(recording.as_bytes()).expect("right sizes");
    let entries = ANSWERS.len() as u64;
    assert_eq!(found, Replay::AllAgree { entries });
    assert!(found.all_agree());
    assert_eq!(written(&replayed), written(&ledger));

    let mut tables = Tables::zeros(SIZES);
    let mut borrowed = Ledger::over(tables.as_mut());
    assert_eq!(borrowed.replay(recording.as_bytes()), Ok(found));
    assert_eq!(tables, ledger.into_tables());
}

#[test]
fn an_answer_changed_in_any_byte_is_found_at_its_entry() {
    let (recording, _) = recorded();
    for (place, (number, word)) in ANSWERS.into_iter().enumerate() {
        for byte in RECORD_BYTES..ENTRY_BYTES {
            let mut bytes = recording.as_bytes().to_vec();
            bytes[place * ENTRY_BYTES + byte] ^= 0x80;
            let said = match byte - RECORD_BYTES {
                0 => Recorded {
                    number: number ^ 0x80,
                    word,
                },
                byte => Recorded {
                    number,
                    word: word ^ 0x80 << (8 * (byte - 1)),
                },
            };
            let mut ledger = used();
            let found = ledger.replay(&bytes).expect("right sizes");
            let disagrees = Replay::Disagrees {
                entry: place as u64 + 1,
                recorded: said,
                answered: Answer::from_parts(number.into(), word).expect("an answer"),
            };
            assert_eq!(found, disagrees);
            assert!(!found.all_agree());
            // the entry was replayed, and none after it
            assert_eq!(written(&ledger), written(&after(place + 1)));
        }
    }
}

#[test]
fn a_record_changed_is_found_where_its_answer_is_another() {
    let (recording, _) = recorded();
    let mut bytes = recording.into_bytes();
    bytes[ENTRY_BYTES + 12] = 9; // the signer of the open
    let found = fresh().replay(&bytes).expect("right sizes");
    assert_eq!(
        found.to_string(),
        "entry 2 disagrees: recorded 0 settled, word 1; answered 13 sender_not_found, word 0"
    );
}

#[test]
fn a_recording_cut_anywhere_agrees_up_to_the_cut() {
    let (recording, _) = recorded();
    let bytes = &recording.as_bytes()[..3 * ENTRY_BYTES];
    let led_to: Vec<_> = (0..=3).map(|count| written(&after(count))).collect();
    for length in 0..=bytes.len() {
        let (whole, piece) = (length / ENTRY_BYTES, length % ENTRY_BYTES);
        let mut ledger = used();
        let found = ledger.replay(&bytes[..length]).expect("right sizes");
        let expected = match piece {
            0 => Replay::AllAgree {
                entries: whole as u64,
            },
            _ => Replay::CutShort {
                agreed: whole as u64,
            },
        };
        assert_eq!(found, expected, "{length} bytes");
        assert_eq!(found.replayed(), whole as u64);
        assert_eq!(written(&ledger), led_to[whole]);

        let cut = Recording::from_bytes(bytes[..length].to_vec());
        assert_eq!((cut.len(), cut.cut().len()), (whole, piece));
        assert_eq!(cut.entries().count(), whole);
        assert_eq!(cut.is_empty(), whole == 0);
    }
}

#[test]
fn a_disagreement_is_told_before_a_cut_behind_it() {
    let (recording, _) = recorded();
    let mut bytes = recording.into_bytes();
    bytes[2 * ENTRY_BYTES + RECORD_BYTES] = 12;
    bytes.truncate(bytes.len() - 1);
    let found = fresh().replay(&bytes).expect("right sizes");
    assert!(
        matches!(found, Replay::Disagrees { entry: 3, .. }),
        "{found}"
    );
}

#[test]
fn a_number_that_no_answer_has_disagrees() {
    for number in 44..=255 {
        let mut bytes = recorded().0.into_bytes();
        bytes[RECORD_BYTES] = number;
        let said = Entries::new(&bytes).next().expect("an entry").recorded;
        assert_eq!((said.number, said.answer()), (number, None));
        let disagrees = Replay::Disagrees {
            entry: 1,
            recorded: said,
            answered: Answer::Settled(0),
        };
        assert_eq!(fresh().replay(&bytes), Ok(disagrees));
        let shown = disagrees.to_string();
        assert!(shown.contains(&format!("recorded {number} (no answer's number), word 0;")));
    }
}

#[test]
fn tables_of_a_wrong_length_are_refused_and_stay() {
    let (recording, ledger) = recorded();
    let whole = ledger.into_tables();
    for table in 0..5 {
        for longer in [false, true] {
            let mut tables = whole.clone();
            let torn = [
                &mut tables.header,
                &mut tables.wallets,
                &mut tables.escrows,
                &mut tables.receipts,
                &mut tables.journal,
            ];
            let torn = torn.into_iter().nth(table).expect("one of five");
            let length = torn.len();
            torn.resize(if longer { length + 1 } else { length - 1 }, 5);
            let before = tables.clone();
            let mut ledger = Ledger::over(tables);
            assert_eq!(ledger.replay(recording.as_bytes()), Err(Refusal::BadTable));
            assert_eq!(ledger.replay(&[]), Err(Refusal::BadTable));
            assert_eq!(ledger.tables(), before.as_ref());
            assert_eq!(
                Recorder::start(ledger, Vec::new()).err(),
                Some(Refusal::BadTable)
            );
        }
    }
}

#[test]
fn tables_of_other_sizes_may_disagree() {
    let (recording, _) = recorded();
    let small = Sizes {
        wallets: 1,
        ..SIZES
    };
    let found = Ledger::new(small).and_then(|mut ledger| ledger.replay(recording.as_bytes()));
    let disagrees = Replay::Disagrees {
        entry: 2,
        recorded: Recorded { number: 0, word: 1 },
        answered: Answer::Refused(Refusal::WalletTableFull),
    };
    assert_eq!(found, Ok(disagrees));
}
