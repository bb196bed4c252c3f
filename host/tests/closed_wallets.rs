//! What a closed wallet is refused, and what it is not: answer 43 of request 6, through the crate.

mod departed;

use milebeacon::{
    Answer, Envelope, EscrowNumber, Freezable, Ledger, ReceiptNumber, Refusal, Sizes, Submission,
    Tables, WalletState,
};

use departed::{
    admin, by, claim, close, closed, emptied, emptied_of, fill_journal, is_refused, settles, GONE,
    HERE, HOUR, NOW, OTHER,
};

const CLOSED: Refusal = Refusal::WalletClosed;

fn open(signer: u64, target: u64, amount: u64) -> Submission {
    Submission::open(by(signer, 9), target, amount, NOW + HOUR)
}

fn transfer(signer: u64, target: u64, amount: u64) -> Submission {
    Submission::transfer(by(signer, 9), target, amount)
}

fn freeze(id: u64, frozen: bool) -> Submission {
    Submission::freeze(admin(9), Freezable::Wallet(id), frozen)
}

/// Every record that names the wallet of `GONE`, and what it is answered while that is live.
fn naming() -> Vec<(Submission, Answer)> {
    let poor = Answer::Refused(Refusal::InsufficientBalance);
    vec![
        (Submission::grant(admin(9), GONE, 5), Answer::Settled(0)),
        (transfer(GONE, HERE, 5), poor),
        (transfer(HERE, GONE, 5), Answer::Settled(0)),
        (open(GONE, HERE, 5), poor),
        (open(HERE, GONE, 5), Answer::Settled(1)),
        (claim(GONE, 9, HERE), Answer::Settled(1)),
        (claim(HERE, 9, GONE), Answer::Settled(1)),
        (freeze(GONE, true), Answer::Settled(0)),
        (freeze(GONE, false), Answer::Settled(0)),
        (Submission::caps(admin(9), GONE, 5, 5), Answer::Settled(0)),
        (Submission::close(admin(9), GONE), Answer::Settled(0)),
    ]
}

#[test]
fn each_role_that_names_it_is_refused() {
    for (submission, live) in naming() {
        assert_eq!(emptied().settle(&submission), live, "{submission:?}");
        is_refused(&mut closed(), submission, CLOSED);
    }
}

#[test]
fn it_is_refused_ever_after_and_its_row_stays() {
    let mut ledger = closed();
    let words = *ledger.wallet(GONE).row().expect("its row").words();
    let last_time = (1 << 48) - 1;
    settles(&mut ledger, Submission::sweep(last_time, 1_000), 0);
    for (submission, _) in naming() {
        let late = Submission {
            now: last_time,
            issued: last_time,
            expires: last_time,
            ..submission
        };
        is_refused(&mut ledger, late, CLOSED);
    }
    assert!(ledger.wallet(GONE).is_closed());
    assert_eq!(*ledger.wallet(GONE).row().expect("its row").words(), words);
}

#[test]
fn no_second_row_is_made() {
    let mut ledger = closed();
    for payment in [
        Submission::grant(admin(9), GONE, 5),
        transfer(HERE, GONE, 5),
        open(HERE, GONE, 5),
    ] {
        is_refused(&mut ledger, payment, CLOSED);
    }
    let ids: Vec<u64> = ledger.wallets().map(|wallet| wallet.id()).collect();
    assert_eq!(ids, [GONE, HERE]);
    // a missing one gets the next row, and the closed one keeps its own
    settles(&mut ledger, transfer(HERE, OTHER, 5), 0);
    let states: Vec<(u64, bool)> = ledger
        .wallets()
        .map(|wallet| (wallet.id(), wallet.is_closed()))
        .collect();
    assert_eq!(states, [(GONE, true), (HERE, false), (OTHER, false)]);
}

#[test]
fn a_closed_wallet_is_no_missing_one_in_a_full_table() {
    let two = Sizes {
        wallets: 2,
        ..Sizes::PROGRAM
    };
    let mut ledger = emptied_of(two);
    settles(&mut ledger, close(GONE), 0);
    is_refused(&mut ledger, transfer(HERE, GONE, 5), CLOSED);
    let full = Refusal::WalletTableFull;
    is_refused(&mut ledger, transfer(HERE, OTHER, 5), full);
}

#[test]
fn what_names_no_wallet_can_still_be_signed() {
    let mut ledger = emptied();
    settles(&mut ledger, claim(HERE, 1, GONE), 1);
    settles(&mut ledger, claim(HERE, 2, GONE), 2);
    settles(&mut ledger, claim(GONE, 2, HERE), 3);
    for nonce in [3, 4] {
        let hold = Submission::open(by(HERE, nonce), OTHER, 5, NOW + HOUR);
        settles(&mut ledger, hold, nonce - 2);
    }
    settles(&mut ledger, close(GONE), 0);

    // replies to and of the closed one, and what it does as an admin
    let own = |nonce| by(GONE, nonce);
    for submission in [
        Submission::accept(own(3), ReceiptNumber(1)),
        Submission::dispute(own(4), ReceiptNumber(2), true),
        Submission::accept(by(HERE, 5), ReceiptNumber(3)),
        Submission::release(own(5).by_admin(), EscrowNumber(1)),
        Submission::refund(own(6).by_admin(), EscrowNumber(2)),
        Submission::grant(own(7).by_admin(), HERE, 5),
        Submission::caps(own(8).by_admin(), HERE, 5, 5),
        Submission::freeze(own(9).by_admin(), Freezable::Wallet(HERE), true),
        Submission::freeze(own(10).by_admin(), Freezable::System, true),
        Submission::freeze(own(11).by_admin(), Freezable::System, false),
    ] {
        settles(&mut ledger, submission, 0);
    }
    assert!(ledger.wallet(GONE).is_closed());
    assert!(ledger.is_sound());
}

#[test]
fn nobody_else_is_hindered() {
    let mut ledger = closed();
    settles(&mut ledger, transfer(HERE, OTHER, 5), 0);
    settles(&mut ledger, open(OTHER, HERE, 5), 1);
    settles(&mut ledger, claim(HERE, 10, OTHER), 1);
    settles(&mut ledger, Submission::grant(admin(9), OTHER, 5), 0);
}

#[test]
fn checks_up_to_16_come_before_it() {
    let mut ledger = closed();
    settles(&mut ledger, Submission::grant(admin(2), OTHER, 5), 0);
    let frozen = Submission::freeze(admin(3), Freezable::Wallet(OTHER), true);
    settles(&mut ledger, frozen, 0);
    let most = 1_000_000_000_000_000;
    for (submission, why) in [
        (transfer(GONE, HERE, 0), Refusal::AmountOutOfRange),
        (open(HERE, GONE, most + 1), Refusal::AmountOutOfRange),
        (
            Submission::caps(admin(9), GONE, 0, most + 1),
            Refusal::AmountOutOfRange,
        ),
        (transfer(99, GONE, 5), Refusal::SenderNotFound),
        (transfer(OTHER, GONE, 5), Refusal::SenderFrozen),
        (transfer(GONE, GONE, 5), Refusal::RecipientInvalid),
        (transfer(GONE, 0, 5), Refusal::RecipientInvalid),
        (claim(GONE, 9, 0), Refusal::RecipientInvalid),
        (Submission::grant(by(1, 9), GONE, 5), Refusal::NotAdmin),
        (Submission::grant(admin(1), GONE, 5), Refusal::NonceSeen),
    ] {
        is_refused(&mut ledger, submission, why);
    }
    // it is no frozen one, whose refusal is 14
    is_refused(&mut ledger, transfer(GONE, HERE, 5), CLOSED);
}

#[test]
fn checks_from_17_on_come_after_it() {
    let mut ledger = closed();
    let most = 1_000_000_000_000_000;
    let until = |until, submission| Submission {
        until,
        ..submission
    };
    for submission in [
        transfer(HERE, GONE, most),                      // 17 and 18
        transfer(GONE, OTHER, most),                     // of a missing recipient, too
        until(NOW, open(HERE, GONE, 5)),                 // 20
        until(NOW + 1_000 * HOUR, open(GONE, HERE, 5)),  // 21
        claim(99, 9, GONE),                              // 22
        claim(GONE, 9, 99),                              // 23
        until(NOW, claim(HERE, 9, GONE)),                // 24
        until(NOW + 1_000 * HOUR, claim(GONE, 9, HERE)), // 25
        Submission {
            link: 3,
            ..claim(HERE, 9, GONE)
        }, // 27
    ] {
        is_refused(&mut ledger, submission, CLOSED);
    }
    fill_journal(&mut ledger);
    for (submission, _) in naming() {
        is_refused(&mut ledger, submission, CLOSED);
    }
}

#[test]
fn a_grant_to_it_is_refused_before_the_grant_limit() {
    let mut tables = closed().into_tables();
    let most = 1_000_000_000_000_000_000;
    tables.wallets[6 + 1] = most;
    tables.header[3] = most;
    let mut ledger = Ledger::over(tables);
    assert!(ledger.is_sound());
    is_refused(&mut ledger, Submission::grant(admin(9), GONE, 5), CLOSED);
    let grant = Submission::grant(admin(9), HERE, 5);
    is_refused(&mut ledger, grant, Refusal::GrantLimit);
}

/// The tables of `emptied`, with another frozen word of `GONE`.
fn with_word(word: u64) -> Tables<Vec<u64>> {
    let mut tables = emptied().into_tables();
    tables.wallets[3] = word;
    tables
}

#[test]
fn a_sound_ledger_has_the_words_0_1_and_2() {
    for word in 0..=2 {
        assert!(Ledger::over(with_word(word)).is_sound(), "{word}");
    }
    for word in [3, 4, 1 << 32, u64::MAX] {
        let mut ledger = Ledger::over(with_word(word));
        assert!(!ledger.is_sound(), "{word}");
        for (submission, _) in naming() {
            is_refused(&mut ledger, submission, Refusal::LedgerDamaged);
        }
    }
    // the word 2 is that of wallets, and not of the system
    let mut tables = emptied().into_tables();
    tables.header[1] = 2;
    let mut ledger = Ledger::over(tables);
    is_refused(&mut ledger, close(GONE), Refusal::LedgerDamaged);
}

#[test]
fn a_closed_wallet_that_a_host_brings_along_is_closed() {
    // with credits in it, which no submission leads to
    let mut tables = with_word(2);
    tables.wallets[1] = 200;
    tables.wallets[6 + 1] = 300;
    let mut ledger = Ledger::over(tables);
    assert!(ledger.is_sound());
    assert!(ledger.wallet(GONE).is_closed());
    assert_eq!(ledger.balance_total(), 500);
    for (submission, _) in naming() {
        is_refused(&mut ledger, submission, CLOSED);
    }
}

#[test]
fn a_ledger_started_afresh_has_no_closed_wallets() {
    let mut ledger = closed();
    ledger.start_afresh().expect("right sizes");
    assert_eq!(ledger.wallet(GONE), WalletState::Missing);
    let grant = Submission::grant(Envelope::new(NOW, 1, 1).by_admin(), GONE, 5);
    settles(&mut ledger, grant, 0);
    assert!(ledger.wallet(GONE).is_live());
}
