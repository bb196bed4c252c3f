//! Section "What settling does", beyond the checked cases.

mod common;
use common::*;
use second::Submission;

const NOW: u64 = 1_000_000;
const DEADLINE: u64 = NOW + 1_000_000;

fn world() -> World {
    let mut world = World::usual();
    world.settles(grant(NOW, 1, 7, 50_000));
    world.settles(open(NOW, 7, 1, 8, 1_000, DEADLINE));
    world
}

fn admin(s: Submission) -> Submission {
    Submission {
        flags: s.flags | ADMIN,
        ..s
    }
}

#[test]
fn a_grant_to_oneself_and_to_a_frozen_wallet_settles() {
    let mut w = world();
    w.settles(freeze(NOW, 2, 7, true));
    w.settles(grant(NOW, 3, 1, 5));
    w.settles(grant(NOW, 4, 7, 5));
    assert_eq!(w.has(1), (5, 0));
    assert_eq!(w.has(7), (49_005, 1_000));
    assert_eq!(w.header[3], 50_010);
    assert_eq!(w.wallet_row(7).unwrap()[3], 1);
    assert_eq!(w.entry(3), [1, 2, 10, 7, 0, NOW, 0, 0]);
}

#[test]
fn a_transfer_makes_the_wallet_and_keeps_what_is_unwritten() {
    let mut w = world();
    let before = w.clone();
    w.settles(transfer(NOW + 5, 7, 2, 9, 40));
    assert_eq!(w.has(7), (48_960, 1_000));
    assert_eq!(w.wallets[12..18], [9, 40, 0, 0, 100_000_000, 1_000_000_000]);
    assert_eq!(w.wallets[18..], before.wallets[18..]);
    assert_eq!(w.journal[24..], before.journal[24..]);
    assert_eq!(w.escrows, before.escrows);
    assert_eq!(w.receipts, before.receipts);
    assert_eq!(w.header, [1, 0, NOW + 5, 50_000, 3, 1, 0, 3]);
}

#[test]
fn refunds_by_sender_and_by_an_admin() {
    let mut w = world();
    w.settles(open(NOW, 7, 2, 8, 2_000, DEADLINE));
    assert_eq!(w.settles(close(5, NOW + 1, 7, 3, 1)), 0);
    assert_eq!(w.settles(admin(close(5, NOW + 2, 99, 1, 2))), 0);
    assert_eq!(w.has(7), (50_000, 0));
    assert_eq!(w.has(8), (0, 0));
    assert_eq!(w.escrow(1), [7, 8, 1_000, DEADLINE, 3, NOW, NOW + 1, 7]);
    assert_eq!(w.escrow(2), [7, 8, 2_000, DEADLINE, 3, NOW, NOW + 2, 99]);
}

#[test]
fn caps_set_both() {
    let mut w = world();
    w.settles(caps(NOW, 9, 7, MOST, 0));
    assert_eq!(w.wallet_row(7).unwrap()[4..], [MOST, 0]);
    w.settles(caps(NOW, 2, 7, 0, MOST));
    assert_eq!(w.wallet_row(7).unwrap()[4..], [0, MOST]);
    assert_eq!(w.entry(4), [1, 2, 11, 7, 0, NOW, 0, MOST]);
    w.refuses(transfer(NOW, 7, 2, 8, 1), 18);
}

#[test]
fn a_dispute_moves_no_credits() {
    let mut w = world();
    w.settles(claim(NOW, 8, 1, 7, DEADLINE, 1));
    assert_eq!(w.settles(dispute(NOW + 1, 7, 2, 1)), 0);
    assert_eq!(w.receipt(1)[5..10], [3, NOW, NOW + 1, 7, 0]);
    assert_eq!(w.has(7), (49_000, 1_000));
    assert_eq!(w.escrow(1)[4], 1);
}

#[test]
fn an_accept_without_link_or_when_the_escrow_is_stale() {
    let mut w = world();
    w.settles(claim(NOW, 8, 1, 7, DEADLINE, 0));
    w.settles(claim(NOW, 8, 2, 7, DEADLINE, 1));
    assert_eq!(w.settles(accept(NOW, 7, 2, 1)), 0);
    assert_eq!(w.receipt(1)[5..10], [2, NOW, NOW, 7, 0]);
    // Until request 5/13 a pending receipt could be accepted after its deadline.
    w.refuses(accept(DEADLINE + 1, 7, 3, 2), 41);
    // A claim's window ends with its escrow's deadline or before (31). Only lent tables have a
    // receipt that can be accepted when its escrow is stale; no release then.
    w.receipts[14 + 3] = DEADLINE + 1;
    assert_eq!(w.settles(accept(DEADLINE + 1, 7, 3, 2)), 0);
    assert_eq!(w.receipt(2)[5..10], [2, NOW, DEADLINE + 1, 7, 29]);
    assert_eq!(w.escrow(1)[4..], [1, NOW, 0, 0]);
    assert_eq!(w.has(7), (49_000, 1_000));
}

#[test]
fn a_sweep_takes_receipts_first_and_releases_for_auto_accept() {
    let mut w = world();
    let short = NOW + 300_000;
    // Escrow 2 is due before the receipts are.
    w.settles(open(NOW, 7, 2, 8, 2_000, NOW + 1));
    w.settles(claim(NOW, 8, 1, 7, short, 1));
    w.settles(auto(claim(NOW, 8, 2, 7, short, 1)));
    w.settles(auto(claim(NOW, 8, 3, 7, short, 1)));
    w.settles(auto(claim(NOW, 8, 4, 7, short, 0)));
    w.settles(auto(claim(NOW, 8, 5, 7, short + 1, 1)));
    // Nothing is due at the deadline itself but escrow 2.
    let mut at = w.clone();
    assert_eq!(at.settles(sweep(short, 1_000)), 1);
    assert_eq!(at.escrow(2)[4..], [4, NOW, short, 0]);
    // Afterwards four receipts and escrow 2 are.
    let now = short + 1;
    assert_eq!(w.settles(sweep(now, 1)), 1);
    assert_eq!(w.receipt(1)[5..10], [4, NOW, now, 0, 0]);
    assert_eq!(w.receipt(2)[5], 1);
    assert_eq!(w.settles(sweep(now, 3)), 3);
    assert_eq!(w.receipt(2)[5..10], [2, NOW, now, 0, 0]);
    assert_eq!(w.receipt(3)[5..10], [2, NOW, now, 0, 29]);
    assert_eq!(w.receipt(4)[5..10], [2, NOW, now, 0, 0]);
    assert_eq!(w.receipt(5)[5], 1);
    assert_eq!(w.escrow(1)[4..], [2, NOW, now, 0]);
    assert_eq!(w.has(8), (1_000, 0));
    assert_eq!(w.escrow(2)[4], 1);
    assert_eq!(w.settles(sweep(now, 1_000)), 1);
    assert_eq!(w.has(7), (49_000, 0));
    assert_eq!(w.settles(sweep(now + 1, 1_000)), 1);
    assert_eq!(w.receipt(5)[5..10], [2, NOW, now + 1, 0, 29]);
    assert_eq!(w.header[7], 8);
}

#[test]
fn a_sweep_of_a_stale_linked_escrow_stores_29_and_returns_the_credits() {
    let mut w = world();
    w.settles(auto(claim(NOW, 8, 1, 7, DEADLINE, 1)));
    assert_eq!(w.settles(sweep(DEADLINE + 1, 1_000)), 2);
    assert_eq!(w.receipt(1)[5..10], [2, NOW, DEADLINE + 1, 0, 29]);
    assert_eq!(w.escrow(1)[4..], [4, NOW, DEADLINE + 1, 0]);
    assert_eq!(w.has(7), (50_000, 0));
}

#[test]
fn a_closing_signer_left_over_is_overwritten_by_a_sweep() {
    let mut w = world();
    w.escrows[6] = 3;
    w.escrows[7] = 99;
    assert!(w.sound());
    assert_eq!(w.settles(sweep(DEADLINE + 1, 1)), 1);
    assert_eq!(w.escrow(1)[4..], [4, NOW, DEADLINE + 1, 0]);
}
