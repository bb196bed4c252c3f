//! Each number from 1 to 43 is reached, with word 0 and unchanged tables.

mod common;
use common::*;
use second::{submit, Submission};

const NOW: u64 = 1_000_000;
const DEADLINE: u64 = NOW + 1_000_000;

/// 7 holds 49,000 and has an escrow 1 of 1,000 to 8; 8 has claimed receipt 1.
fn world() -> World {
    let mut world = World::usual();
    world.settles(grant(NOW, 1, 7, 50_000));
    world.settles(open(NOW, 7, 1, 8, 1_000, DEADLINE));
    world.settles(claim(NOW, 8, 1, 7, NOW + 400_000, 1));
    world
}

fn unsigned(s: Submission) -> Submission {
    Submission { flags: 0, ..s }
}

#[test]
fn bad_table_and_ledger_damaged_come_first() {
    let cut: [fn(&mut World); 5] = [
        |w| w.header.truncate(7),
        |w| w.wallets.truncate(47),
        |w| w.escrows.clear(),
        |w| w.receipts.push(0),
        |w| w.journal.resize(8_193 * 8, 0),
    ];
    for change in cut {
        let mut w = world();
        w.header[0] = 2;
        change(&mut w);
        let before = w.clone();
        assert_eq!(submit(&mut w.tables(), &[]), (1, 0));
        assert!(w == before);
    }
    let mut w = world();
    w.header[0] = 2;
    let before = w.clone();
    assert_eq!(submit(&mut w.tables(), &[]), (2, 0));
    assert!(w == before);
    w.header[0] = 1;
    let before = w.clone();
    assert_eq!(submit(&mut w.tables(), &[]), (3, 0));
    assert!(w == before);
}

#[test]
fn clock_freeze_signature_admin() {
    let mut w = world();
    w.refuses(unsigned(grant(NOW - 1, 9, 7, 5)), 4);
    w.refuses(sweep(NOW - 1, 0), 4);
    w.refuses(unsigned(grant(NOW, 9, 7, 5)), 6);
    let plain = Submission {
        flags: SIGNED,
        ..grant(NOW, 9, 7, 0)
    };
    w.refuses(plain, 7);
    let freezer = freeze(NOW, 9, 99, true);
    w.refuses(
        Submission {
            flags: SIGNED | BIT2,
            ..freezer
        },
        7,
    );
    w.refuses(signed(11, NOW, 1, 9), 7);
    w.refuses(signed(12, NOW, 1, 9), 7);
    w.settles(freeze(NOW, 9, 0, true));
    assert_eq!(w.header[1], 1);
    w.refuses(unsigned(grant(NOW, 10, 7, 5)), 5);
    w.refuses(sweep(NOW, 0), 5);
    for op in 2..=7 {
        w.refuses(unsigned(signed(op, NOW, 7, 10)), 5);
    }
    for reply in REPLIES {
        w.refuses(reply(NOW, 7, 10, 1), 5);
    }
    w.settles(caps(NOW, 10, 7, 1, 2));
    w.settles(freeze(NOW, 11, 0, false));
    assert_eq!(w.header[1], 0);
    w.settles(sweep(NOW, 1));
}

#[test]
fn envelopes_and_nonces() {
    let mut w = world();
    let envelope = |issued, expires| Submission {
        issued,
        expires,
        ..transfer(NOW, 7, 1, 8, 0)
    };
    w.refuses(envelope(NOW + 30_001, NOW + 4_000_000), 8);
    w.refuses(envelope(0, NOW - 1), 9);
    w.refuses(envelope(NOW, NOW + 3_600_001), 10);
    w.refuses(envelope(NOW, NOW), 11);
    // Burning a nonce on a refusal would be wrong.
    w.refuses(transfer(NOW, 7, 2, 8, 0), 12);
    w.settles(transfer(NOW, 7, 2, 8, 1));
    w.refuses(transfer(NOW, 7, 2, 8, 0), 11);
}

#[test]
fn amounts_and_parties() {
    let mut w = world();
    w.refuses(grant(NOW, 9, 0, 0), 12);
    w.refuses(grant(NOW, 9, 0, MOST + 1), 12);
    w.refuses(open(NOW, 99, 9, 0, 0, NOW), 12);
    w.refuses(sweep(NOW, 0), 12);
    w.refuses(sweep(NOW, 1_001), 12);
    w.refuses(caps(NOW, 9, 99, MOST + 1, 0), 12);
    w.refuses(caps(NOW, 9, 99, 0, MOST + 1), 12);
    w.refuses(transfer(NOW, 99, 9, 0, 5), 13);
    w.refuses(open(NOW, 99, 9, 99, 5, NOW), 13);
    w.refuses(grant(NOW, 9, 0, 5), 15);
    w.refuses(transfer(NOW, 7, 9, 0, MOST), 15);
    w.refuses(transfer(NOW, 7, 9, 7, MOST), 15);
    w.refuses(open(NOW, 7, 9, 7, MOST, NOW), 15);
    w.refuses(claim(NOW, 99, 9, 99, NOW, 0), 15);
    w.refuses(claim(NOW, 99, 9, 0, NOW, 0), 15);
    w.refuses(freeze(NOW, 9, 99, true), 16);
    w.refuses(caps(NOW, 9, 99, 0, 0), 16);
    w.refuses(caps(NOW, 9, 0, 0, 0), 16);
    w.settles(freeze(NOW, 9, 7, true));
    w.refuses(transfer(NOW, 7, 9, 0, 5), 14);
    w.refuses(open(NOW, 7, 9, 7, 5, NOW), 14);
    w.settles(sweep(NOW, 1_000));
}

/// 42 and 43 have tests of their own, and so have their places.
#[test]
fn closed_wallets() {
    let mut w = world();
    w.refuses(close_wallet(NOW, 9, 99), 16);
    w.refuses(close_wallet(NOW, 9, 7), 42);
    w.refuses(close_wallet(NOW, 9, 8), 42);
    w.settles(close(5, NOW, 7, 9, 1));
    w.settles(close_wallet(NOW, 9, 8));
    w.refuses(transfer(NOW, 7, 10, 8, 50_001), 43);
    w.refuses(transfer(NOW, 8, 10, 7, 5), 43);
    w.refuses(close_wallet(NOW, 10, 8), 43);
}

#[test]
fn balances_and_caps() {
    let mut w = world();
    // The world's open of 1,000 is counted.
    w.settles(caps(NOW, 9, 7, 100, 1_250));
    w.refuses(transfer(NOW, 7, 9, 8, 49_001), 17);
    w.refuses(transfer(NOW, 7, 9, 8, 49_000), 18);
    w.settles(transfer(NOW, 7, 10, 8, 100));
    w.settles(transfer(NOW + 1, 7, 11, 8, 100));
    w.refuses(transfer(NOW + 2, 7, 12, 8, 51), 19);
    w.refuses(open(NOW + 2, 7, 12, 8, 51, NOW), 19);
    w.settles(open(NOW + 2, 7, 12, 8, 50, NOW + 3));
    w.refuses(open(NOW + 2, 7, 13, 8, 1, NOW), 19);
    w.refuses(transfer(NOW + 2, 7, 13, 8, 1), 19);
    let day = 86_400_000;
    w.refuses(transfer(NOW + day, 7, 14, 8, 1), 19);
    // What was paid at NOW isn't counted any longer; 100 and 50 are.
    w.settles(caps(NOW + day + 1, 10, 7, 100, 250));
    w.settles(transfer(NOW + day + 1, 7, 14, 8, 100));
    w.refuses(transfer(NOW + day + 1, 7, 15, 8, 1), 19);
}

#[test]
fn opens_and_claims() {
    let mut w = world();
    w.refuses(open(NOW, 7, 9, 8, 5, NOW), 20);
    w.refuses(open(NOW, 7, 9, 8, 5, NOW + 604_800_001), 21);
    w.refuses(claim(NOW, 99, 9, 98, 0, 9), 22);
    w.refuses(claim(NOW, 7, 9, 98, 0, 9), 23);
    w.refuses(claim(NOW, 8, 9, 7, NOW + 299_999, 9), 24);
    w.refuses(claim(NOW, 8, 9, 7, NOW + 604_800_001, 9), 25);
    let early = Submission {
        issued: NOW - 300_001,
        ..claim(NOW, 8, 9, 7, NOW - 1, 9)
    };
    w.refuses(early, 26);
    let just = Submission {
        until: NOW,
        ..early
    };
    // Not past at now itself; 27 comes next.
    w.refuses(just, 27);
    w.refuses(claim(NOW, 8, 9, 7, NOW + 300_000, 2), 27);
    w.refuses(claim(NOW, 8, 9, 7, NOW + 300_000, u64::MAX), 27);
    w.refuses(claim(DEADLINE + 1, 7, 9, 8, DEADLINE + 400_000, 1), 29);
    w.refuses(claim(NOW, 7, 9, 8, DEADLINE + 1, 1), 30);
    w.refuses(claim(NOW, 8, 9, 7, DEADLINE + 1, 1), 31);
    w.settles(claim(NOW, 8, 9, 7, DEADLINE, 1));
    w.settles(claim(NOW, 7, 9, 8, NOW + 300_000, 0));
    w.settles(claim(NOW, 7, 10, 8, NOW + 604_800_000, 0));
}

#[test]
fn closings() {
    let mut w = world();
    for op in [4, 5] {
        w.refuses(close(op, NOW, 7, 9, 0), 27);
        w.refuses(close(op, NOW, 7, 9, 2), 27);
        w.refuses(close(op, DEADLINE + 1, 8, 9, 1), 28);
        w.refuses(close(op, DEADLINE + 1, 7, 9, 1), 29);
    }
    for reply in REPLIES {
        w.refuses(reply(NOW, 7, 9, 0), 32);
        w.refuses(reply(NOW, 7, 9, 2), 32);
        w.refuses(reply(NOW, 8, 9, 1), 33);
    }
    let no_reason = Submission {
        flags: SIGNED,
        ..dispute(NOW, 7, 9, 1)
    };
    w.refuses(no_reason, 35);
    // 41 has tests of its own, and so has its place.
    for reply in REPLIES {
        w.refuses(reply(NOW + 400_001, 7, 9, 1), 41);
    }
    w.settles(accept(NOW, 7, 9, 1));
    for reply in REPLIES {
        w.refuses(reply(NOW, 8, 10, 1), 33);
        w.refuses(reply(NOW, 7, 10, 1), 34);
    }
    w.refuses(no_reason, 11);
    w.refuses(
        Submission {
            nonce: 10,
            ..no_reason
        },
        34,
    );
}

#[test]
fn limits_and_full_tables() {
    let mut w = World::new(2, 1, 1, 1_006);
    for nonce in 0..999 {
        w.settles(grant(NOW, nonce, 7, MOST));
    }
    w.settles(grant(NOW, 999, 8, MOST - 1));
    w.refuses(grant(NOW, 1_000, 9, 2), 36);
    w.refuses(grant(NOW, 1_000, 9, 1), 37);
    w.refuses(transfer(NOW, 7, 1, 9, 1), 37);
    w.settles(grant(NOW, 1_000, 8, 1));
    w.refuses(grant(NOW, 1_001, 8, 1), 36);
    w.settles(open(NOW, 7, 1, 8, 5, NOW + 1));
    w.refuses(open(NOW, 7, 2, 9, 5, NOW + 1), 37);
    w.refuses(open(NOW, 7, 2, 8, 5, NOW + 1), 38);
    w.settles(claim(NOW, 7, 2, 8, NOW + 300_000, 0));
    w.refuses(claim(NOW, 7, 3, 8, NOW + 300_000, 0), 39);
    w.settles(transfer(NOW, 7, 3, 8, 1));
    w.settles(transfer(NOW, 7, 4, 8, 1));
    w.settles(transfer(NOW, 7, 5, 8, 1));
    w.refuses(open(NOW, 7, 6, 8, 5, NOW + 1), 38);
    w.refuses(claim(NOW, 7, 6, 8, NOW + 300_000, 0), 39);
    w.refuses(transfer(NOW, 7, 6, 8, 1), 40);
    w.refuses(freeze(NOW, 1_001, 0, true), 40);
    w.refuses(caps(NOW, 1_001, 7, 1, 1), 40);
    w.refuses(close_wallet(NOW, 1_001, 7), 42);
    w.refuses(close(5, NOW, 7, 6, 1), 40);
    assert_eq!(w.settles(sweep(NOW + 2, 9)), 1);
}
