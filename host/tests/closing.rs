//! Which wallets can be closed, by whom and when: operation 12 and answer 42 of request 6, through
//! the crate.

mod departed;

use milebeacon::{
    Answer, Envelope, EscrowNumber, Freezable, Ledger, Refusal, Submission, WalletState,
};

use departed::{
    admin, by, claim, close, closed, emptied, fill_journal, is_refused, settles, GONE, HERE, HOUR,
    NOW, OTHER,
};

const NOT_EMPTY: Refusal = Refusal::WalletNotEmpty;

#[test]
fn the_answers_are_those_of_the_request() {
    let answer = Answer::Refused(Refusal::WalletNotEmpty);
    assert_eq!((answer.number(), answer.word()), (42, 0));
    assert_eq!((answer.name(), answer.status()), ("wallet_not_empty", 409));
    let answer = Answer::Refused(Refusal::WalletClosed);
    assert_eq!((answer.number(), answer.word()), (43, 0));
    assert_eq!((answer.name(), answer.status()), ("wallet_closed", 403));
}

#[test]
fn an_empty_wallet_is_closed_and_nothing_else_changes() {
    let mut ledger = emptied();
    let mut expected = ledger.clone().into_tables();
    expected.header[2] = NOW + 5;
    expected.header[7] = 3;
    expected.wallets[3] = 2;
    expected.journal[16..24].copy_from_slice(&[1, 9, 12, GONE, 0, NOW + 5, 0, 0]);

    let later = Envelope::new(NOW + 5, 1, 9).by_admin();
    settles(&mut ledger, Submission::close(later, GONE), 0);
    assert_eq!(ledger.tables(), expected.as_ref());
    assert!(ledger.is_sound());
    let row = match ledger.wallet(GONE) {
        WalletState::Closed(row) => row,
        other => panic!("{other:?}"),
    };
    let words = [GONE, 0, 0, 2, 100_000_000, 1_000_000_000];
    assert_eq!(row.words(), &words);
    assert!(row.is_closed() && !row.is_frozen());
    assert!(ledger.wallet(HERE).is_live());
}

#[test]
fn a_frozen_wallet_can_be_closed_too() {
    let mut ledger = emptied();
    let freeze = Submission::freeze(admin(2), Freezable::Wallet(GONE), true);
    settles(&mut ledger, freeze, 0);
    let row = ledger.wallet(GONE).live().expect("a frozen one is live");
    assert!(row.is_frozen() && !row.is_closed());
    settles(&mut ledger, close(GONE), 0);
    let row = ledger.wallet(GONE).row().expect("it keeps its row");
    assert!(row.is_closed() && !row.is_frozen());
}

#[test]
fn a_wallet_with_balance_cannot_be_closed() {
    let mut ledger = emptied();
    settles(&mut ledger, Submission::grant(admin(2), GONE, 1), 0);
    is_refused(&mut ledger, close(GONE), NOT_EMPTY);
    is_refused(&mut ledger, close(HERE), NOT_EMPTY);
    settles(&mut ledger, Submission::transfer(by(GONE, 2), HERE, 1), 0);
    settles(&mut ledger, close(GONE), 0);
}

#[test]
fn a_wallet_with_locked_credits_cannot_be_closed() {
    let mut ledger = emptied();
    let open = Submission::open(by(HERE, 1), OTHER, 500, NOW + HOUR);
    settles(&mut ledger, open, 1);
    let row = ledger.wallet(HERE).live().expect("a live wallet");
    assert_eq!((row.balance(), row.locked()), (0, 500));
    is_refused(&mut ledger, close(HERE), NOT_EMPTY);

    let mut refunded = ledger.clone();
    let refund = Submission::refund(by(HERE, 2), EscrowNumber(1));
    settles(&mut refunded, refund, 0);
    is_refused(&mut refunded, close(HERE), NOT_EMPTY);
    let release = Submission::release(by(HERE, 2), EscrowNumber(1));
    settles(&mut ledger, release, 0);
    settles(&mut ledger, close(HERE), 0);
}

/// `HERE` holds 100 for `GONE`, whose wallet has nothing in it, in escrow 1.
fn promised() -> Ledger {
    let mut ledger = emptied();
    let open = Submission::open(by(HERE, 1), GONE, 100, NOW + HOUR);
    settles(&mut ledger, open, 1);
    let row = ledger.wallet(GONE).live().expect("a live wallet");
    assert_eq!((row.balance(), row.locked()), (0, 0));
    ledger
}

fn close_at(now: u64) -> Submission {
    Submission::close(Envelope::new(now, 1, 1_000).by_admin(), GONE)
}

#[test]
fn a_wallet_with_an_open_escrow_to_it_cannot_be_closed() {
    let mut ledger = promised();
    is_refused(&mut ledger, close_at(NOW), NOT_EMPTY);
    is_refused(&mut ledger, close_at(NOW + HOUR), NOT_EMPTY);

    let refund = Submission::refund(by(HERE, 2), EscrowNumber(1));
    let mut refunded = ledger.clone();
    settles(&mut refunded, refund, 0);
    settles(&mut refunded, close_at(NOW), 0);
    // what was released to it is its balance
    let release = Submission::release(by(HERE, 2), EscrowNumber(1));
    settles(&mut ledger, release, 0);
    is_refused(&mut ledger, close_at(NOW), NOT_EMPTY);
    settles(&mut ledger, Submission::transfer(by(GONE, 2), HERE, 100), 0);
    settles(&mut ledger, close_at(NOW), 0);
}

#[test]
fn an_escrow_to_it_past_its_deadline_is_open_until_the_sweep() {
    let late = NOW + HOUR + 1;
    let mut ledger = promised();
    let escrow = ledger.escrow(EscrowNumber(1)).expect("an escrow");
    assert!(escrow.is_stale(late));
    is_refused(&mut ledger, close_at(late), NOT_EMPTY);
    is_refused(&mut ledger, close_at(NOW + 1_000 * HOUR), NOT_EMPTY);
    settles(&mut ledger, Submission::sweep(late, 1), 1);
    settles(&mut ledger, close_at(late), 0);
}

#[test]
fn any_of_its_escrows_counts_and_nobody_elses() {
    let mut ledger = emptied();
    for (nonce, target) in (1..).zip([GONE, OTHER, GONE, GONE, OTHER]) {
        let open = Submission::open(by(HERE, nonce), target, 10, NOW + HOUR);
        settles(&mut ledger, open, nonce);
    }
    // each time the first, the middle or the last of three is the one that is left
    for left in [1, 3, 4] {
        let mut ledger = ledger.clone();
        let refund = |escrow| Submission::refund(by(HERE, 10 + escrow), EscrowNumber(escrow));
        for escrow in [1, 3, 4].into_iter().filter(|&escrow| escrow != left) {
            is_refused(&mut ledger, close(GONE), NOT_EMPTY);
            settles(&mut ledger, refund(escrow), 0);
        }
        is_refused(&mut ledger, close(GONE), NOT_EMPTY);
        settles(&mut ledger, refund(left), 0);
        settles(&mut ledger, close(GONE), 0);
        is_refused(&mut ledger, close(OTHER), NOT_EMPTY);
    }
}

#[test]
fn a_receipt_that_waits_keeps_no_wallet_open() {
    let mut ledger = emptied();
    settles(&mut ledger, claim(GONE, 2, HERE), 1);
    settles(&mut ledger, claim(HERE, 1, GONE), 2);
    settles(&mut ledger, close(GONE), 0);
}

#[test]
fn the_wallet_has_to_be_there() {
    for mut ledger in [emptied(), closed()] {
        for id in [0, OTHER, u64::MAX] {
            let close = Submission::close(admin(9), id);
            is_refused(&mut ledger, close, Refusal::WalletNotFound);
        }
    }
}

#[test]
fn only_an_admin_closes_a_wallet() {
    let mut ledger = emptied();
    for signer in [1, GONE, HERE] {
        let asked = Submission::close(by(signer, 9), GONE);
        is_refused(&mut ledger, asked, Refusal::NotAdmin);
    }
    let unsigned = Submission::close(admin(9).unsigned(), GONE);
    is_refused(&mut ledger, unsigned, Refusal::InvalidSignature);
    // the target may be the signer's own
    settles(
        &mut ledger,
        Submission::close(by(GONE, 9).by_admin(), GONE),
        0,
    );
}

#[test]
fn a_frozen_system_keeps_no_wallet_from_being_closed() {
    let mut ledger = emptied();
    let freeze = Submission::freeze(admin(2), Freezable::System, true);
    settles(&mut ledger, freeze, 0);
    let grant = Submission::grant(admin(3), GONE, 1);
    is_refused(&mut ledger, grant, Refusal::SystemFrozen);
    is_refused(&mut ledger, close(HERE), NOT_EMPTY);
    settles(&mut ledger, close(GONE), 0);
}

#[test]
fn a_close_has_an_envelope_like_others() {
    let mut ledger = emptied();
    let sent = |envelope: Envelope| Submission::close(envelope.by_admin(), GONE);
    let window = |issued, expires| sent(by(1, 9).window(issued, expires));
    for (close, why) in [
        (sent(Envelope::new(NOW - 1, 1, 9)), Refusal::ClockBack),
        (
            window(NOW + 30_001, NOW + 40_000),
            Refusal::EnvelopeNotYetValid,
        ),
        (window(NOW - 10, NOW - 1), Refusal::EnvelopeExpired),
        (window(NOW, NOW + HOUR + 1), Refusal::EnvelopeWindowTooLong),
        (sent(by(1, 1)), Refusal::NonceSeen),
    ] {
        is_refused(&mut ledger, close, why);
    }
    settles(&mut ledger, window(NOW + 30_000, NOW + 30_000 + HOUR), 0);
    // the retry of what has settled is a retry first
    let retry = window(NOW + 30_000, NOW + 30_000 + HOUR);
    is_refused(&mut ledger, retry, Refusal::NonceSeen);
}

#[test]
fn a_refused_close_burns_no_nonce() {
    let mut ledger = emptied();
    settles(&mut ledger, Submission::grant(admin(2), GONE, 1), 0);
    is_refused(&mut ledger, close(GONE), NOT_EMPTY);
    is_refused(&mut ledger, close(GONE), NOT_EMPTY);
    settles(&mut ledger, Submission::transfer(by(GONE, 2), HERE, 1), 0);
    settles(&mut ledger, close(GONE), 0);
}

#[test]
fn a_full_journal_is_told_last() {
    let mut ledger = emptied();
    fill_journal(&mut ledger);
    is_refused(&mut ledger, close(GONE), Refusal::JournalTableFull);
    is_refused(&mut ledger, close(HERE), NOT_EMPTY);
    is_refused(&mut ledger, close(OTHER), Refusal::WalletNotFound);
    let mut ledger = closed();
    fill_journal(&mut ledger);
    let again = Submission::close(admin(9), GONE);
    is_refused(&mut ledger, again, Refusal::WalletClosed);
}
