//! A used signer and nonce is seen in whichever journal row it stands: the cases of request 4,
//! through the crate.

use milebeacon::{Answer, Envelope, Ledger, Refusal, Sizes, Submission, Tables};

const NOW: u64 = 1_700_000_000_000;
const ADMIN: u64 = 1;

fn grant(nonce: u64) -> Submission {
    Submission::grant(Envelope::new(NOW, ADMIN, nonce).by_admin(), 7, 1_000_000)
}

fn transfer(nonce: u64) -> Submission {
    Submission::transfer(Envelope::new(NOW, 7, nonce), 8, 1)
}

fn settles(ledger: &mut Ledger, submission: Submission) {
    assert!(matches!(ledger.settle(&submission), Answer::Settled(_)));
}

fn is_refused(ledger: &mut Ledger, submission: Submission, why: Refusal) {
    let before = ledger.clone();
    assert_eq!(ledger.settle(&submission), Answer::Refused(why));
    assert_eq!(*ledger, before);
}

/// A full journal of these sizes: a grant, and then transfers with the nonces 2, 3, ..
fn full(sizes: Sizes) -> Ledger {
    let mut ledger = Ledger::new(sizes).expect("the sizes are right");
    settles(&mut ledger, grant(1));
    for nonce in 2..=sizes.journal as u64 {
        settles(&mut ledger, transfer(nonce));
    }
    assert_eq!(ledger.journal().count(), sizes.journal);
    ledger
}

#[test]
fn every_row_of_a_full_journal_is_seen() {
    let newest = Sizes::PROGRAM.journal as u64;
    let mut ledger = full(Sizes::PROGRAM);
    for nonce in (2..=newest).rev() {
        is_refused(&mut ledger, transfer(nonce), Refusal::NonceSeen);
    }
    is_refused(&mut ledger, grant(1), Refusal::NonceSeen);
}

#[test]
fn the_newest_and_the_oldest_of_the_longest_journal_are_seen() {
    let newest = Sizes::LARGEST.journal as u64;
    let mut ledger = full(Sizes::LARGEST);
    is_refused(&mut ledger, transfer(newest), Refusal::NonceSeen);
    is_refused(&mut ledger, transfer(2), Refusal::NonceSeen);
    is_refused(&mut ledger, grant(1), Refusal::NonceSeen);
    is_refused(&mut ledger, transfer(newest + 1), Refusal::JournalTableFull);
}

#[test]
fn another_nonce_and_another_signer_are_not() {
    let newest = Sizes::PROGRAM.journal as u64;
    let mut ledger = full(Sizes::PROGRAM);
    is_refused(&mut ledger, transfer(newest + 1), Refusal::JournalTableFull);
    is_refused(&mut ledger, transfer(1), Refusal::JournalTableFull);
    is_refused(&mut ledger, grant(newest), Refusal::JournalTableFull);
}

#[test]
fn a_row_that_is_not_written_is_not() {
    let mut tables = Tables::zeros(Sizes::PROGRAM);
    tables.journal.fill(ADMIN);
    let mut ledger = Ledger::over(tables);
    ledger.start_afresh().expect("the sizes are right");
    settles(&mut ledger, grant(ADMIN));
    is_refused(&mut ledger, grant(ADMIN), Refusal::NonceSeen);
}
