//! The daily cap counts transfers and opens: the cases of request 2, through the crate.

use milebeacon::{Answer, Envelope, EscrowNumber, Ledger, Refusal, Sizes, Submission};

const NOW: u64 = 1_700_000_000_000;
const HOUR: u64 = 3_600_000;
/// 24 hours after `NOW`, to the millisecond: what was paid then still counts.
const DAY_ENDS: u64 = NOW + 86_400_000;
const DAY_OVER: u64 = NOW + 86_400_001;
const CAP: u64 = 20_000_000;

/// Wallets 7 and 8 have 50,000,000 each; 7 may pay `CAP` a day.
fn capped() -> Ledger {
    let mut ledger = Ledger::new(Sizes::PROGRAM).expect("the program's sizes are right");
    let admin = |nonce| Envelope::new(NOW, 1, nonce).by_admin();
    settles(&mut ledger, Submission::grant(admin(1), 7, 50_000_000));
    settles(&mut ledger, Submission::grant(admin(2), 8, 50_000_000));
    settles(&mut ledger, Submission::caps(admin(3), 7, 50_000_000, CAP));
    ledger
}

fn settles(ledger: &mut Ledger, submission: Submission) {
    assert!(matches!(ledger.settle(&submission), Answer::Settled(_)));
}

fn is_over_the_cap(ledger: &mut Ledger, submission: Submission) {
    let before = ledger.clone();
    assert_eq!(
        ledger.settle(&submission),
        Answer::Refused(Refusal::DailyCapExceeded)
    );
    assert_eq!(*ledger, before);
}

fn open(now: u64, signer: u64, nonce: u64, amount: u64) -> Submission {
    let target = 15 - signer;
    Submission::open(
        Envelope::new(now, signer, nonce),
        target,
        amount,
        now + HOUR,
    )
}

fn transfer(now: u64, nonce: u64, amount: u64) -> Submission {
    Submission::transfer(Envelope::new(now, 7, nonce), 8, amount)
}

#[test]
fn an_open_counts_for_24_hours() {
    let mut ledger = capped();
    settles(&mut ledger, open(NOW, 7, 1, CAP));
    is_over_the_cap(&mut ledger, transfer(DAY_ENDS, 2, 1));
    is_over_the_cap(&mut ledger, open(DAY_ENDS, 7, 2, 1));
    let mut other = ledger.clone();
    settles(&mut ledger, transfer(DAY_OVER, 2, 1));
    settles(&mut other, open(DAY_OVER, 7, 2, 1));
}

#[test]
fn a_transfer_counts_for_24_hours() {
    let mut ledger = capped();
    settles(&mut ledger, transfer(NOW, 1, CAP));
    is_over_the_cap(&mut ledger, transfer(DAY_ENDS, 2, 1));
    is_over_the_cap(&mut ledger, open(DAY_ENDS, 7, 2, 1));
    settles(&mut ledger, open(DAY_OVER, 7, 2, CAP));
}

#[test]
fn what_becomes_of_the_escrow_gives_no_room_back() {
    let endings = [
        Submission::refund(Envelope::new(NOW + 1, 7, 2), EscrowNumber(1)),
        Submission::release(Envelope::new(NOW + 1, 7, 2), EscrowNumber(1)),
        Submission::sweep(NOW + HOUR + 1, 1),
    ];
    for ending in endings {
        let mut ledger = capped();
        settles(&mut ledger, open(NOW, 7, 1, CAP));
        settles(&mut ledger, ending);
        let wallet = ledger.wallet(7).live().expect("a live wallet");
        assert_eq!(wallet.locked(), 0);
        is_over_the_cap(&mut ledger, transfer(DAY_ENDS, 3, 1));
        settles(&mut ledger, transfer(DAY_OVER, 3, 1));
    }
}

#[test]
fn opens_and_transfers_count_together_up_to_the_cap() {
    let mut ledger = capped();
    settles(&mut ledger, open(NOW, 7, 1, CAP - 1));
    is_over_the_cap(&mut ledger, transfer(NOW, 2, 2));
    settles(&mut ledger, transfer(NOW, 2, 1));
}

#[test]
fn neither_others_opens_nor_own_rows_of_other_operations_count() {
    let mut ledger = capped();
    let own = |nonce| Envelope::new(NOW, 7, nonce).by_admin();
    settles(&mut ledger, open(NOW, 8, 1, CAP));
    settles(&mut ledger, Submission::grant(own(1), 8, CAP));
    settles(&mut ledger, Submission::caps(own(2), 7, 50_000_000, CAP));
    settles(&mut ledger, transfer(NOW, 3, CAP));
}
