//! Request 6/13: what each of the operations, an accept and a dispute by themselves, does with a closed signer and a closed target,
//! and tables that are lent with a closed wallet that has credits or escrows.

mod common;
use common::*;
use second::Submission;

const NOW: u64 = 1_000_000;
const WINDOW: u64 = NOW + 300_000;
const DEADLINE: u64 = NOW + 1_000_000;

/// 1 (the admin), 7, 8 and 9 have wallets, 9 with nothing in it. Escrow 1 is from 7 to 8, and
/// receipt 1 is 8's on it; so 1 is the number of a wallet, an escrow and a receipt.
fn world() -> World {
    let mut world = World::usual();
    world.settles(grant(NOW, 1, 7, 50_000));
    world.settles(grant(NOW, 2, 1, 100));
    world.settles(transfer(NOW, 7, 1, 9, 5));
    world.settles(transfer(NOW, 9, 1, 7, 5));
    world.settles(open(NOW, 7, 2, 8, 1_000, DEADLINE));
    world.settles(auto(claim(NOW, 8, 1, 7, WINDOW, 1)));
    world
}

/// One of each operation, both replies to a claim, all of which settle where no wallet is closed.
fn each() -> [Submission; 12] {
    [
        grant(NOW, 99, 8, 5),
        transfer(NOW, 7, 99, 8, 5),
        open(NOW, 7, 99, 8, 5, DEADLINE),
        close(4, NOW, 7, 99, 1),
        close(5, NOW, 7, 99, 1),
        claim(NOW, 8, 99, 7, WINDOW, 1),
        accept(NOW, 7, 99, 1),
        dispute(NOW, 7, 99, 1),
        sweep(WINDOW + 1, 9),
        freeze(NOW, 99, 9, true),
        caps(NOW, 99, 9, 5, 5),
        close_wallet(NOW, 99, 9),
    ]
}

/// Those of the wallets 1, 7, 8 and 9 that each record above may not name if they are closed.
const REFUSED: [&[u64]; 12] = [
    // target
    &[8],
    // signer, target
    &[7, 8],
    &[7, 8],
    // The target is an escrow; the signer is not asked for.
    &[],
    &[],
    // signer, target
    &[8, 7],
    // The target is a receipt; the signer is not asked for.
    &[],
    &[],
    // It names no wallet, whatever it ends.
    &[],
    // target
    &[9],
    &[9],
    &[9],
];

#[test]
fn what_each_operation_does_where_one_wallet_is_closed() {
    for (s, refused) in each().iter().zip(REFUSED) {
        let mut live = world();
        let word = live.settles(*s);
        for id in [1, 7, 8, 9] {
            let mut w = world();
            w.set_frozen(id, 2);
            if refused.contains(&id) {
                w.refuses(*s, 43);
                continue;
            }
            // It does what it does where the wallet is live, and the wallet stays closed.
            assert_eq!(w.settles(*s), word);
            assert_eq!(w.frozen(id), 2, "{} in {:?}", id, s);
            let mut same = live.clone();
            same.set_frozen(id, 2);
            assert!(w == same, "{} in {:?}", id, s);
        }
    }
}

#[test]
fn what_each_operation_does_where_all_wallets_are_closed() {
    for (s, refused) in each().iter().zip(REFUSED) {
        let mut w = world();
        for id in [1, 7, 8, 9] {
            w.set_frozen(id, 2);
        }
        match refused {
            [] => {
                w.settles(*s);
            }
            _ => w.refuses(*s, 43),
        }
        assert_eq!([1, 7, 8, 9].map(|id| w.frozen(id)), [2; 4]);
    }
}

/// "refusal 14 is given for the word 1 only", and 43 for the word 2 only.
#[test]
fn frozen_is_not_closed() {
    for s in each() {
        for id in [1, 7, 8, 9] {
            let mut w = world();
            w.set_frozen(id, 1);
            if matches!(s.op, 2 | 3) && id == 7 {
                w.refuses(s, 14);
            } else {
                w.settles(s);
            }
        }
    }
}

/// Where the words of 4, 5, 7 and 9 have the number or id of a closed wallet, they name none.
#[test]
fn the_number_of_an_escrow_or_a_receipt_is_no_wallets_id() {
    let of = |target| {
        [
            (close(4, NOW, 7, 99, target), 27),
            (close(5, NOW, 7, 99, target), 27),
            (accept(NOW, 7, 99, target), 32),
            (dispute(NOW, 7, 99, target), 32),
        ]
    };
    for ((s, _), (missing, number)) in of(1).into_iter().zip(of(9)) {
        let mut w = world();
        w.set_frozen(1, 2);
        w.settles(s);
        // Nor is there an escrow or receipt 9 because there is a closed wallet.
        let mut w = world();
        w.set_frozen(9, 2);
        w.refuses(missing, number);
    }
    // a limit
    let mut w = world();
    w.set_frozen(9, 2);
    w.settles(sweep(NOW, 9));
    // a link: the escrow's number is wallet 1's id
    let mut w = world();
    w.set_frozen(1, 2);
    w.settles(claim(NOW, 8, 99, 7, WINDOW, 1));
    // a daily cap and an amount
    w.settles(caps(NOW, 99, 9, 1, 1));
    w.settles(transfer(NOW, 7, 99, 8, 1));
}

#[test]
fn the_systems_freeze_names_no_wallet() {
    for closed in [1, 7, 8, 9] {
        let mut w = world();
        w.set_frozen(closed, 2);
        w.settles(freeze(NOW, 99, 0, true));
        assert_eq!(w.header[1], 1);
        w.settles(freeze(NOW, 98, 0, false));
        assert_eq!(w.header[1], 0);
    }
}

/// A claim's parties are looked for at 43 before they are missed at 22 and 23.
#[test]
fn a_missing_wallet_and_a_closed_one() {
    let mut w = world();
    w.set_frozen(9, 2);
    w.refuses(claim(NOW, 70, 1, 9, WINDOW, 0), 43);
    w.refuses(claim(NOW, 9, 2, 70, WINDOW, 0), 43);
    w.refuses(claim(NOW, 70, 1, 8, WINDOW, 0), 22);
    w.refuses(claim(NOW, 8, 2, 70, WINDOW, 0), 23);
    // A sender is missed at 13, above it; a missing target is made if nothing else is wrong.
    w.refuses(transfer(NOW, 70, 1, 9, 5), 13);
    w.refuses(open(NOW, 70, 1, 9, 5, DEADLINE), 13);
    w.refuses(transfer(NOW, 9, 2, 70, 5), 43);
    w.refuses(open(NOW, 9, 2, 70, 5, DEADLINE), 43);
    w.settles(transfer(NOW, 7, 3, 70, 5));
    // To oneself is 15 also if one is closed.
    w.refuses(transfer(NOW, 9, 2, 9, 5), 15);
    w.refuses(open(NOW, 9, 2, 9, 5, DEADLINE), 15);
    w.refuses(claim(NOW, 9, 2, 9, WINDOW, 0), 15);
}

#[test]
fn a_release_pays_a_closed_wallet() {
    for s in [
        close(4, NOW, 7, 99, 1),
        accept(NOW, 7, 99, 1),
        sweep(WINDOW + 1, 9),
    ] {
        let mut w = world();
        w.set_frozen(8, 2);
        assert_eq!(w.settles(s), u64::from(s.op != 4));
        assert_eq!(w.escrow(1)[4], 2);
        assert_eq!(w.has(7), (49_000, 0));
        assert_eq!((w.has(8), w.frozen(8)), ((1_000, 0), 2));
        // A release that was possible: no code.
        assert_eq!(w.receipt(1)[9], 0);
        // There the credits stay: it cannot give them away, and cannot be closed again.
        let now = WINDOW + 1;
        w.refuses(transfer(now, 8, 99, 7, 1_000), 43);
        w.refuses(open(now, 8, 99, 7, 1_000, DEADLINE), 43);
        w.refuses(close_wallet(now, 99, 8), 43);
    }
}

#[test]
fn what_was_held_returns_to_a_closed_wallet() {
    let admins = Submission {
        flags: SIGNED | ADMIN,
        ..close(5, NOW, 1, 99, 1)
    };
    // by the closed wallet's own signature too
    for s in [close(5, NOW, 7, 99, 1), admins] {
        let mut w = world();
        w.set_frozen(7, 2);
        assert_eq!(w.settles(s), 0);
        assert_eq!(w.escrow(1)[4..], [3, NOW, NOW, s.signer]);
        assert_eq!((w.has(7), w.frozen(7)), ((50_000, 0), 2));
    }
    let mut w = world();
    w.set_frozen(7, 2);
    // The receipt is accepted, and its release comes too late.
    assert_eq!(w.settles(sweep(DEADLINE + 1, 9)), 2);
    assert_eq!(w.receipt(1)[5..10], [2, NOW, DEADLINE + 1, 0, 29]);
    assert_eq!(w.escrow(1)[4], 4);
    assert_eq!((w.has(7), w.frozen(7)), ((50_000, 0), 2));
}

/// A live wallet is kept open by an escrow whose sender is closed.
#[test]
fn an_escrow_from_a_closed_wallet_is_an_open_escrow() {
    let mut w = world();
    w.set_frozen(7, 2);
    w.refuses(close_wallet(NOW, 99, 8), 42);
    w.settles(close(5, NOW, 7, 99, 1));
    w.settles(close_wallet(NOW, 99, 8));
}

/// A limit reached, a table full: a closed wallet makes no room and needs none.
#[test]
fn a_closed_target_needs_no_row() {
    let mut w = world();
    w.wallets.truncate(4 * 6);
    w.set_frozen(9, 2);
    w.refuses(grant(NOW, 99, 9, 5), 43);
    w.refuses(transfer(NOW, 7, 99, 9, 5), 43);
    w.refuses(open(NOW, 7, 99, 9, 5, DEADLINE), 43);
    w.refuses(grant(NOW, 99, 70, 5), 37);
}
