//! Accept and dispute are refused after the receipt's acceptance deadline: the cases of request 5,
//! through the crate.

mod window;

use milebeacon::{
    Answer, Envelope, EscrowNumber, EscrowState, Freezable, Ledger, ReceiptState, Refusal, Sizes,
    Submission,
};

use window::{
    accept, claim, claimed, credits, dispute, ends, held, is_refused, replies, settles, Ends, DAY,
    DEADLINE, LATE, LONG, NOW, REPLY,
};

#[test]
fn the_answer_is_that_of_the_request() {
    let closed = Answer::Refused(Refusal::AcceptanceClosed);
    assert_eq!((closed.number(), closed.word()), (41, 0));
    assert_eq!((closed.name(), closed.status()), ("acceptance_closed", 409));
    assert_eq!(
        closed.to_string(),
        "acceptance_closed: the receipt is past its acceptance deadline"
    );
}

#[test]
fn a_reply_at_the_deadline_settles() {
    for auto_accept in [false, true] {
        let closed = |receipt, escrow| Ends {
            receipt,
            closed_at: DEADLINE,
            closing_signer: 7,
            release_code: 0,
            escrow,
        };
        let mut ledger = claimed(LONG, auto_accept);
        settles(&mut ledger, accept(DEADLINE, 7, 1), 1);
        let paid = closed(ReceiptState::Accepted, EscrowState::Released);
        assert_eq!(ends(&ledger), paid);
        assert_eq!(credits(&ledger), [(400, 0), (100, 0)]);

        let mut ledger = claimed(LONG, auto_accept);
        settles(&mut ledger, dispute(DEADLINE, 7, 1, true), 0);
        let objected = closed(ReceiptState::Disputed, EscrowState::Open);
        assert_eq!(ends(&ledger), objected);
        assert_eq!(credits(&ledger), [(400, 100), (0, 0)]);
    }
}

#[test]
fn a_reply_after_the_deadline_is_refused() {
    let last_time = (1 << 48) - 1;
    for auto_accept in [false, true] {
        let mut ledger = claimed(LONG, auto_accept);
        for now in [LATE, DEADLINE + 2 * DAY, LONG + 1, last_time] {
            for reply in replies(now) {
                // there is no minute left after the last time
                let reply = Submission {
                    expires: now,
                    ..reply
                };
                is_refused(&mut ledger, reply, Refusal::AcceptanceClosed);
            }
        }
    }
}

#[test]
fn each_receipt_has_a_deadline_of_its_own() {
    let mut ledger = held(LONG);
    settles(&mut ledger, claim(1, DEADLINE + 1, false), 1);
    settles(&mut ledger, claim(2, DEADLINE, false), 2);
    settles(&mut ledger, claim(3, DEADLINE + 1, false), 3);
    for reply in [accept(LATE, 7, 2), dispute(LATE, 7, 2, true)] {
        is_refused(&mut ledger, reply, Refusal::AcceptanceClosed);
    }
    let stale: Vec<bool> = ledger.receipts().map(|row| row.is_stale(LATE)).collect();
    assert_eq!(stale, [false, true, false]);
    let mut other = ledger.clone();
    settles(&mut ledger, accept(LATE, 7, 1), 1);
    settles(&mut other, dispute(LATE, 7, 3, true), 0);
}

#[test]
fn a_late_reply_burns_no_nonce() {
    let mut ledger = claimed(LONG, false);
    for reply in replies(LATE) {
        is_refused(&mut ledger, reply, Refusal::AcceptanceClosed);
        is_refused(&mut ledger, reply, Refusal::AcceptanceClosed);
    }
    // what was held can still be paid by hand
    let release = Submission::release(Envelope::new(LATE, 7, REPLY), EscrowNumber(1));
    settles(&mut ledger, release, 0);
    assert_eq!(credits(&ledger), [(400, 0), (100, 0)]);
    is_refused(&mut ledger, accept(LATE, 7, 1), Refusal::NonceSeen);
}

#[test]
fn a_closed_receipt_is_refused_as_closed() {
    let other = |reply| Submission { nonce: 5, ..reply };
    let endings = [
        (other(accept(DEADLINE, 7, 1)), 1, false),
        (other(dispute(DEADLINE, 7, 1, true)), 0, false),
        (Submission::sweep(LATE, 10), 1, false),
        (Submission::sweep(LATE, 10), 1, true),
    ];
    for (ending, word, auto_accept) in endings {
        let mut ledger = claimed(LONG, auto_accept);
        settles(&mut ledger, ending, word);
        for reply in replies(LATE) {
            is_refused(&mut ledger, reply, Refusal::ReceiptNotPending);
        }
    }
}

#[test]
fn a_dispute_without_a_reason_is_late_first() {
    let mut ledger = claimed(LONG, false);
    let silent = |now| dispute(now, 7, 1, false);
    let reason = Refusal::DisputeReasonRequired;
    is_refused(&mut ledger, silent(DEADLINE), reason);
    is_refused(&mut ledger, silent(LATE), Refusal::AcceptanceClosed);
}

#[test]
fn only_the_requester_of_a_receipt_can_be_late() {
    let mut ledger = claimed(LONG, false);
    for signer in [1, 8, 9] {
        for reply in [accept(LATE, signer, 1), dispute(LATE, signer, 1, false)] {
            is_refused(&mut ledger, reply, Refusal::ReceiptSignerNotAuthorized);
        }
    }
    for receipt in [0, 2, u64::MAX] {
        for reply in [accept(LATE, 7, receipt), dispute(LATE, 7, receipt, false)] {
            is_refused(&mut ledger, reply, Refusal::ReceiptNotFound);
        }
    }
}

#[test]
fn the_envelope_and_the_system_come_before_the_deadline() {
    let mut ledger = claimed(LONG, false);
    let late = accept(LATE, 7, 1);
    let unsigned = Submission { flags: 0, ..late };
    is_refused(&mut ledger, unsigned, Refusal::InvalidSignature);
    let used = Submission { nonce: 1, ..late };
    is_refused(&mut ledger, used, Refusal::NonceSeen);
    let admin = Envelope::new(LATE, 1, 2).by_admin();
    let freeze = Submission::freeze(admin, Freezable::System, true);
    settles(&mut ledger, freeze, 0);
    is_refused(&mut ledger, late, Refusal::SystemFrozen);
}

/// Fills the journal with an admin's rows, which change nothing else.
fn fill_journal(ledger: &mut Ledger) {
    for nonce in 100.. {
        if ledger.journal().count() == Sizes::PROGRAM.journal {
            return;
        }
        let admin = Envelope::new(NOW, 1, nonce).by_admin();
        settles(
            ledger,
            Submission::freeze(admin, Freezable::System, false),
            0,
        );
    }
}

#[test]
fn a_late_reply_is_late_on_a_full_journal_too() {
    let mut ledger = claimed(LONG, false);
    fill_journal(&mut ledger);
    let full = Refusal::JournalTableFull;
    let reason = Refusal::DisputeReasonRequired;
    for (reply, why) in replies(DEADLINE).into_iter().zip([full, full, reason]) {
        is_refused(&mut ledger, reply, why);
    }
    for reply in replies(LATE) {
        is_refused(&mut ledger, reply, Refusal::AcceptanceClosed);
    }
}
