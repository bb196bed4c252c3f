//! Names, numbers and statuses of the answers, as the rules list them.

use std::collections::BTreeSet;
use std::error::Error;

use milebeacon::{status, Answer, Operation, Refusal};

/// The names of the rules, 1 to 43.
const NAMES: [&str; 43] = [
    "bad_table",
    "ledger_damaged",
    "malformed_record",
    "clock_back",
    "system_frozen",
    "invalid_signature",
    "not_admin",
    "envelope_not_yet_valid",
    "envelope_expired",
    "envelope_window_too_long",
    "nonce_seen",
    "amount_out_of_range",
    "sender_not_found",
    "sender_frozen",
    "recipient_invalid",
    "wallet_not_found",
    "insufficient_balance",
    "per_tx_cap_exceeded",
    "daily_cap_exceeded",
    "escrow_deadline_past",
    "escrow_deadline_exceeds_max",
    "provider_not_found",
    "requester_not_found",
    "acceptance_window_too_short",
    "acceptance_window_too_long",
    "acceptance_deadline_past",
    "escrow_not_found",
    "escrow_signer_not_authorized",
    "escrow_not_open",
    "escrow_did_mismatch",
    "acceptance_deadline_exceeds_escrow",
    "receipt_not_found",
    "receipt_signer_not_authorized",
    "receipt_not_pending",
    "dispute_reason_required",
    "grant_limit",
    "wallet_table_full",
    "escrow_table_full",
    "receipt_table_full",
    "journal_table_full",
    "acceptance_closed",
    "wallet_not_empty",
    "wallet_closed",
];

/// The statuses of the rules, 0 to 43.
const STATUSES: [u64; 44] = [
    200, 500, 500, 400, 409, 503, 400, 403, 400, 400, 400, 409, 400, 404, 403, 400, 404, 402, 400,
    429, 400, 400, 404, 404, 400, 400, 400, 404, 403, 409, 400, 400, 404, 403, 409, 400, 409, 507,
    507, 507, 507, 409, 409, 403,
];

#[test]
fn refusals_have_the_names_and_numbers_of_the_rules() {
    for (number, name) in (1..).zip(NAMES) {
        let refusal = Refusal::from_number(number).expect(name);
        assert_eq!((refusal.number(), refusal.name()), (number, name));
        assert_eq!(
            Answer::from_parts(number, 0),
            Some(Answer::Refused(refusal))
        );
        assert_eq!(Answer::from_parts(number, 1), None, "a refusal has word 0");
    }
    for number in [0, 44, 255, u64::MAX] {
        assert_eq!(Refusal::from_number(number), None);
    }
}

#[test]
fn refusals_are_listed_in_the_order_of_the_checks() {
    let numbers: Vec<u64> = Refusal::ALL
        .iter()
        .map(|refusal| refusal.number())
        .collect();
    let checks = (1..=16).chain([43, 42]).chain(17..=34);
    let checks: Vec<u64> = checks.chain([41]).chain(35..=40).collect();
    assert_eq!(numbers, checks);
}

#[test]
fn refusals_compare_by_their_numbers() {
    let mut sorted = Refusal::ALL.to_vec();
    sorted.sort();
    let numbers: Vec<u64> = sorted.iter().map(|refusal| refusal.number()).collect();
    assert_eq!(numbers, (1..=43).collect::<Vec<_>>());
}

#[test]
fn statuses_are_those_of_the_rules() {
    for (number, &expected) in (0..).zip(&STATUSES) {
        assert_eq!(status(number), expected);
        let answer = Answer::from_parts(number, 0).expect("an answer");
        assert_eq!(answer.status(), expected);
    }
    assert_eq!([44, 1_000, u64::MAX].map(status), [500; 3]);
}

#[test]
fn refusals_are_errors_that_speak_for_themselves() {
    fn passed_on(answer: Answer) -> Result<u64, Box<dyn Error>> {
        Ok(answer.settled()?)
    }
    assert_eq!(passed_on(Answer::Settled(5)).ok(), Some(5));
    let error = passed_on(Answer::Refused(Refusal::ClockBack)).expect_err("a refusal");
    assert_eq!(
        error.to_string(),
        "clock_back: now is before the ledger's last clock"
    );
    let said: BTreeSet<String> = Refusal::ALL.iter().map(ToString::to_string).collect();
    assert_eq!(said.len(), 43, "no two say the same");
}

#[test]
fn operations_have_the_numbers_of_the_rules() {
    let named = [
        (1, "grant"),
        (2, "transfer"),
        (3, "open"),
        (4, "release"),
        (5, "refund"),
        (6, "claim"),
        (7, "reply"),
        (9, "sweep"),
        (10, "freeze"),
        (11, "caps"),
        (12, "close"),
    ];
    let operations = Operation::ALL.iter();
    let operations: Vec<(u8, &str)> = operations.map(|it| (it.number(), it.name())).collect();
    assert_eq!(operations, named);
    for &operation in Operation::ALL {
        assert_eq!(Operation::from_number(operation.number()), Some(operation));
    }
    assert_eq!([0, 8, 13, 255].map(Operation::from_number), [None; 4]);
}
