//! A claim that waits for a reply, and the replies to it.

// no test uses all of it
#![allow(dead_code)]

use milebeacon::{
    Answer, Claim, Envelope, EscrowNumber, EscrowState, Ledger, ReceiptNumber, ReceiptState,
    Refusal, Sizes, Submission,
};

pub const NOW: u64 = 1_700_000_000_000;
pub const HOUR: u64 = 3_600_000;
pub const DAY: u64 = 86_400_000;
/// The acceptance deadline, to the millisecond: a reply is still in time then.
pub const DEADLINE: u64 = NOW + HOUR;
pub const LATE: u64 = DEADLINE + 1;
/// The deadline of a hold that outlasts the time for acceptance.
pub const LONG: u64 = NOW + 7 * DAY;

/// The nonce of the replies. 7 has not used it.
pub const REPLY: u64 = 9;

pub fn settles(ledger: &mut Ledger, submission: Submission, word: u64) {
    assert_eq!(ledger.settle(&submission), Answer::Settled(word));
}

pub fn is_refused(ledger: &mut Ledger, submission: Submission, why: Refusal) {
    let before = ledger.clone();
    assert_eq!(ledger.settle(&submission), Answer::Refused(why));
    assert_eq!(*ledger, before);
}

/// 7 has 500 and holds 100 of them for 8 in escrow 1, until then.
pub fn hold(until: u64) -> [Submission; 2] {
    let admin = Envelope::new(NOW, 1, 1).by_admin();
    [
        Submission::grant(admin, 7, 500),
        Submission::open(Envelope::new(NOW, 7, 1), 8, 100, until),
    ]
}

/// 8 claims what is held.
pub fn claim(nonce: u64, until: u64, auto_accept: bool) -> Submission {
    let claim = Claim {
        requester: 7,
        until,
        escrow: Some(EscrowNumber(1)),
        hash: [3; 32],
        auto_accept,
    };
    Submission::claim(Envelope::new(NOW, 8, nonce), claim)
}

/// A ledger with the hold.
pub fn held(until: u64) -> Ledger {
    let mut ledger = Ledger::new(Sizes::PROGRAM).expect("the program's sizes are right");
    for (submission, word) in hold(until).into_iter().zip([0, 1]) {
        settles(&mut ledger, submission, word);
    }
    ledger
}

/// The same with receipt 1, which waits for 7's reply until `DEADLINE`.
pub fn claimed(held_until: u64, auto_accept: bool) -> Ledger {
    let mut ledger = held(held_until);
    settles(&mut ledger, claim(1, DEADLINE, auto_accept), 1);
    ledger
}

pub fn accept(now: u64, signer: u64, receipt: u64) -> Submission {
    Submission::accept(Envelope::new(now, signer, REPLY), ReceiptNumber(receipt))
}

pub fn dispute(now: u64, signer: u64, receipt: u64, reason: bool) -> Submission {
    let envelope = Envelope::new(now, signer, REPLY);
    Submission::dispute(envelope, ReceiptNumber(receipt), reason)
}

/// Both replies of 7 to receipt 1, and a dispute that gives no reason.
pub fn replies(now: u64) -> [Submission; 3] {
    [
        accept(now, 7, 1),
        dispute(now, 7, 1, true),
        dispute(now, 7, 1, false),
    ]
}

/// What became of receipt 1 and of its escrow.
#[derive(Debug, PartialEq, Eq)]
pub struct Ends {
    pub receipt: ReceiptState,
    pub closed_at: u64,
    pub closing_signer: u64,
    pub release_code: u64,
    pub escrow: EscrowState,
}

pub fn ends(ledger: &Ledger) -> Ends {
    let receipt = ledger.receipt(ReceiptNumber(1)).expect("a receipt");
    let escrow = ledger.escrow(EscrowNumber(1)).expect("an escrow");
    Ends {
        receipt: receipt.state().expect("a state"),
        closed_at: receipt.closed_at(),
        closing_signer: receipt.closing_signer(),
        release_code: receipt.release_code(),
        escrow: escrow.state().expect("a state"),
    }
}

/// Balance and locked credits of 7, and of 8.
pub fn credits(ledger: &Ledger) -> [(u64, u64); 2] {
    [7, 8].map(|id| {
        let wallet = ledger.wallet(id).live().expect("a live wallet");
        (wallet.balance(), wallet.locked())
    })
}
