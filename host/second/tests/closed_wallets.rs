//! Request 6/13, "Closed wallets": operation 12, what it closes and what it leaves.

mod common;
use common::*;
use second::{wallet_row, FoundWallet, Submission};

const NOW: u64 = 1_000_000;
const WINDOW: u64 = NOW + 300_000;
const DEADLINE: u64 = NOW + 1_000_000;

/// 7 has 50,000; 9, in row 2, has nothing and has caps of its own.
fn world() -> World {
    let mut world = World::usual();
    world.settles(grant(NOW, 1, 7, 50_000));
    world.settles(transfer(NOW, 7, 1, 9, 5));
    world.settles(transfer(NOW, 9, 1, 7, 5));
    world.settles(caps(NOW, 2, 9, 33, 44));
    world
}

/// By a nonce that nobody has used.
fn closing(now: u64, id: u64) -> Submission {
    close_wallet(now, 99, id)
}

#[test]
fn the_frozen_word_becomes_2_and_nothing_else_of_the_row_changes() {
    for frozen in [0, 1] {
        let mut w = world();
        w.set_frozen(9, frozen);
        let mut left = w.clone();
        assert_eq!(w.settles(closing(NOW + 3, 9)), 0);
        assert_eq!(w.wallets[6..12], [9, 0, 0, 2, 33, 44]);
        left.wallets[9] = 2;
        left.header[2] = NOW + 3;
        left.header[7] = 5;
        left.journal[32..40].copy_from_slice(&[1, 99, 12, 9, 0, NOW + 3, 0, 0]);
        assert!(w == left);
    }
}

#[test]
fn the_lookup_tells_it_from_then_on() {
    let found = |w: &World, id| wallet_row(&w.header, &w.wallets, id);
    let mut w = world();
    assert_eq!(found(&w, 9), FoundWallet::Live(2));
    w.settles(freeze(NOW, 3, 9, true));
    assert_eq!(found(&w, 9), FoundWallet::Live(2));
    w.settles(closing(NOW, 9));
    assert_eq!(found(&w, 9), FoundWallet::Closed(2));
    assert_eq!(found(&w, 7), FoundWallet::Live(1));
    assert_eq!(found(&w, 8), FoundWallet::Missing);
}

#[test]
fn for_admins_whatever_wallet_they_have() {
    let by = |signer| Submission {
        signer,
        ..closing(NOW, 9)
    };
    // a signer without a wallet, a live one, one that closes his own
    for signer in [1, 7, 9] {
        let mut w = world();
        w.refuses(
            Submission {
                flags: SIGNED,
                ..by(signer)
            },
            7,
        );
        w.refuses(
            Submission {
                flags: ADMIN,
                ..by(signer)
            },
            6,
        );
        w.settles(by(signer));
        assert_eq!(w.frozen(9), 2);
    }
    // frozen, closed
    for word in [1, 2] {
        let mut w = world();
        w.set_frozen(7, word);
        w.settles(by(7));
        assert_eq!(w.frozen(9), 2);
        assert_eq!(w.frozen(7), word);
    }
}

#[test]
fn a_frozen_system_does_not_keep_a_wallet_open() {
    let mut w = world();
    w.settles(freeze(NOW, 3, 0, true));
    w.settles(closing(NOW, 9));
    assert_eq!((w.header[1], w.frozen(9)), (1, 2));
    w.settles(freeze(NOW, 4, 0, false));
    w.refuses(grant(NOW, 5, 9, 5), 43);
}

#[test]
fn no_wallet_for_the_target_is_16() {
    let mut w = world();
    for id in [0, 8, u64::MAX] {
        w.refuses(closing(NOW, id), 16);
    }
    // The words of the unwritten row 3 are an empty wallet's, or a closed one's.
    for word in [0, 2] {
        w.wallets[12..18].copy_from_slice(&[8, 0, 0, word, 5, 5]);
        w.refuses(closing(NOW, 8), 16);
        w.refuses(caps(NOW, 99, 8, 5, 5), 16);
        w.refuses(claim(NOW, 9, 99, 8, WINDOW, 0), 23);
    }
    // There it is made as a live one.
    w.settles(grant(NOW, 3, 8, 5));
    assert_eq!(w.wallets[12..18], [8, 5, 0, 0, 100_000_000, 1_000_000_000]);
}

#[test]
fn a_wallet_with_one_credit_is_not_empty() {
    let mut w = world();
    w.settles(grant(NOW, 3, 9, 1));
    w.refuses(closing(NOW, 9), 42);
    w.settles(transfer(NOW, 9, 2, 7, 1));
    w.settles(closing(NOW, 9));
}

#[test]
fn locked_credits_are_not_empty() {
    let mut w = world();
    w.settles(grant(NOW, 3, 9, 1));
    w.settles(open(NOW, 9, 2, 7, 1, DEADLINE));
    assert_eq!(w.has(9), (0, 1));
    w.refuses(closing(NOW, 9), 42);
    // stale and not swept
    w.refuses(closing(DEADLINE + 1, 9), 42);
    let mut refunded = w.clone();
    refunded.settles(close(5, NOW, 9, 3, 1));
    refunded.refuses(closing(NOW, 9), 42);
    let mut expired = w.clone();
    expired.settles(sweep(DEADLINE + 1, 1));
    expired.refuses(closing(DEADLINE + 1, 9), 42);
    // Paid out, its own ended escrow does not matter any longer.
    w.settles(close(4, NOW, 9, 3, 1));
    w.settles(closing(NOW, 9));
}

#[test]
fn an_open_escrow_to_it_is_not_empty() {
    let mut w = world();
    w.settles(open(NOW, 7, 2, 9, 1, DEADLINE));
    assert_eq!(w.has(9), (0, 0));
    // A stale one is open until something closes it.
    for now in [NOW, DEADLINE, DEADLINE + 1, DEADLINE + 604_800_000] {
        w.refuses(closing(now, 9), 42);
    }
    let mut released = w.clone();
    released.settles(close(4, NOW, 7, 3, 1));
    released.refuses(closing(NOW, 9), 42);
    released.settles(transfer(NOW, 9, 2, 7, 1));
    released.settles(closing(NOW, 9));
    let mut refunded = w.clone();
    refunded.settles(close(5, NOW, 7, 3, 1));
    refunded.settles(closing(NOW, 9));
    w.settles(sweep(DEADLINE + 1, 1));
    w.settles(closing(DEADLINE + 1, 9));
}

#[test]
fn every_open_escrow_counts_and_only_those_to_it() {
    let mut w = world();
    for (nonce, to) in [(2, 9), (3, 8), (4, 9), (5, 9)] {
        w.settles(open(NOW, 7, nonce, to, 1, DEADLINE));
    }
    // The last in row order is the last that is ended.
    for (nonce, number) in [(6, 1), (7, 3), (8, 4)] {
        w.refuses(closing(NOW, 9), 42);
        w.settles(close(5, NOW, 7, nonce, number));
    }
    // Escrow 2, from 7 to 8, is open still.
    w.refuses(closing(NOW, 8), 42);
    w.refuses(closing(NOW, 7), 42);
    // So is, by its words, the unwritten row 5.
    w.escrows[32..40].copy_from_slice(&[7, 9, 1, DEADLINE, 1, NOW, 0, 0]);
    w.settles(closing(NOW, 9));
    assert_eq!(w.escrow(2)[4], 1);
}

/// "balance, locked credits or an open escrow to it": receipts are not among them.
#[test]
fn pending_receipts_do_not_keep_a_wallet_open() {
    let mut w = world();
    // 9 is provider of receipts 1 and 2, and requester of 3 and 4
    w.settles(claim(NOW, 9, 2, 7, WINDOW, 0));
    w.settles(auto(claim(NOW, 9, 3, 7, WINDOW, 0)));
    w.settles(claim(NOW, 7, 2, 9, WINDOW, 0));
    w.settles(claim(NOW, 7, 3, 9, WINDOW, 0));
    w.settles(closing(NOW, 9));
    for number in 1..=4 {
        assert_eq!(w.receipt(number)[5], 1);
    }
    // They are answered, also by the wallet that is closed, and swept as before.
    w.settles(accept(NOW, 7, 4, 1));
    w.settles(dispute(NOW, 9, 4, 3));
    w.settles(accept(NOW, 9, 5, 4));
    assert_eq!(w.settles(sweep(WINDOW + 1, 9)), 1);
    let states = [1, 2, 3, 4].map(|number| w.receipt(number)[5]);
    assert_eq!(states, [2, 2, 3, 2]);
    // A new claim is not.
    w.refuses(claim(NOW + 300_001, 9, 6, 7, WINDOW + 300_001, 0), 43);
}

#[test]
fn a_closed_wallet_stays_closed() {
    let mut w = world();
    w.settles(closing(NOW, 9));
    let later = NOW + 604_800_000;
    for now in [NOW, later] {
        w.refuses(close_wallet(now, 98, 9), 43);
        w.refuses(freeze(now, 98, 9, true), 43);
        w.refuses(freeze(now, 98, 9, false), 43);
        w.refuses(caps(now, 98, 9, 5, 5), 43);
        w.refuses(caps(now, 98, 9, 0, 0), 43);
        w.refuses(grant(now, 98, 9, 5), 43);
        w.refuses(transfer(now, 7, 98, 9, 5), 43);
        w.refuses(open(now, 7, 98, 9, 5, now + 5), 43);
    }
    // No refusal has burnt the nonce.
    w.settles(grant(NOW, 98, 7, 5));
    w.settles(transfer(NOW, 7, 98, 8, 5));
    // The system's freeze is not about the wallet.
    w.settles(freeze(NOW, 97, 0, true));
    w.settles(freeze(NOW, 96, 0, false));
    assert_eq!(w.frozen(9), 2);
}

#[test]
fn its_row_is_not_free_again() {
    let mut w = World::new(2, 8, 8, 32);
    w.settles(grant(NOW, 1, 7, 50_000));
    w.settles(transfer(NOW, 7, 1, 9, 5));
    w.settles(transfer(NOW, 9, 1, 7, 5));
    w.settles(closing(NOW, 9));
    assert_eq!(w.header[4], 2);
    w.refuses(grant(NOW, 2, 8, 5), 37);
    w.refuses(transfer(NOW, 7, 2, 8, 5), 37);
    w.refuses(open(NOW, 7, 2, 8, 5, DEADLINE), 37);
    w.refuses(grant(NOW, 2, 9, 5), 43);
}

#[test]
fn all_wallets_may_be_closed() {
    let mut w = World::usual();
    w.settles(grant(NOW, 1, 7, 5));
    w.settles(transfer(NOW, 7, 1, 8, 5));
    w.settles(close_wallet(NOW, 2, 7));
    w.refuses(close_wallet(NOW, 3, 8), 42);
    w.settles(open(NOW, 8, 1, 9, 5, DEADLINE));
    w.settles(close(4, NOW, 8, 2, 1));
    w.settles(close_wallet(NOW, 3, 8));
    // 9 holds what was granted; another may take it over.
    w.settles(transfer(NOW, 9, 1, 6, 5));
    w.settles(close_wallet(NOW, 4, 9));
    assert_eq!([7, 8, 9, 6].map(|id| w.frozen(id)), [2, 2, 2, 0]);
    assert_eq!(w.header[3], 5);
}

#[test]
fn the_same_closing_again_is_seen() {
    let mut w = world();
    w.settles(closing(NOW, 9));
    w.refuses(closing(NOW, 9), 11);
    // The nonce is the signer's, whatever the operation.
    w.refuses(grant(NOW, 99, 7, 5), 11);
    w.refuses(close_wallet(NOW, 1, 7), 11);
}

#[test]
fn closing_is_no_payment() {
    // An admin's closings do not count towards his daily cap.
    let mut w = world();
    w.settles(grant(NOW, 3, 1, 1_000));
    w.settles(caps(NOW, 4, 1, 1_000, 1_000));
    w.settles(closing(NOW, 9));
    w.settles(transfer(NOW, 1, 98, 7, 1_000));
}
