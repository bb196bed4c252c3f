//! A departed crew's wallet, and the records that name it.

// no test uses all of it
#![allow(dead_code)]

use milebeacon::{Answer, Claim, Envelope, Freezable, Ledger, Refusal, Sizes, Submission};

pub const NOW: u64 = 1_700_000_000_000;
pub const HOUR: u64 = 3_600_000;

/// The crew that leaves, and one that stays.
pub const GONE: u64 = 7;
pub const HERE: u64 = 8;
/// A party that has no wallet to begin with.
pub const OTHER: u64 = 9;

pub fn settles(ledger: &mut Ledger, submission: Submission, word: u64) {
    assert_eq!(ledger.settle(&submission), Answer::Settled(word));
}

pub fn is_refused(ledger: &mut Ledger, submission: Submission, why: Refusal) {
    let before = ledger.clone();
    assert_eq!(ledger.settle(&submission), Answer::Refused(why));
    assert_eq!(*ledger, before);
}

pub fn admin(nonce: u64) -> Envelope {
    Envelope::new(NOW, 1, nonce).by_admin()
}

pub fn by(signer: u64, nonce: u64) -> Envelope {
    Envelope::new(NOW, signer, nonce)
}

/// An admin closes the wallet. The nonces are one apart from those that the ledgers here have seen.
pub fn close(id: u64) -> Submission {
    Submission::close(admin(1_000 + id), id)
}

pub fn claim(signer: u64, nonce: u64, requester: u64) -> Submission {
    let claim = Claim {
        requester,
        until: NOW + HOUR,
        escrow: None,
        hash: [3; 32],
        auto_accept: false,
    };
    Submission::claim(by(signer, nonce), claim)
}

/// `GONE` was granted 500 and has paid all of it to `HERE`.
pub fn history() -> [Submission; 2] {
    [
        Submission::grant(admin(1), GONE, 500),
        Submission::transfer(by(GONE, 1), HERE, 500),
    ]
}

/// A ledger on which `GONE` has an empty wallet in row 1, and `HERE` one with 500 in row 2.
pub fn emptied() -> Ledger {
    emptied_of(Sizes::PROGRAM)
}

pub fn emptied_of(sizes: Sizes) -> Ledger {
    let mut ledger = Ledger::new(sizes).expect("right sizes");
    for submission in history() {
        settles(&mut ledger, submission, 0);
    }
    ledger
}

/// The same with that wallet closed.
pub fn closed() -> Ledger {
    let mut ledger = emptied();
    settles(&mut ledger, close(GONE), 0);
    ledger
}

/// Fills the journal with an admin's rows, which change nothing else.
pub fn fill_journal(ledger: &mut Ledger) {
    for nonce in 5_000.. {
        if ledger.journal().count() == Sizes::PROGRAM.journal {
            return;
        }
        let thaw = Submission::freeze(admin(nonce), Freezable::System, false);
        settles(ledger, thaw, 0);
    }
}
