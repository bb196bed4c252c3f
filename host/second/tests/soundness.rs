//! "A ledger is sound if: ...", broken in one clause at a time.

mod common;
use common::*;
use second::{fresh, submit};

const NOW: u64 = 1_000_000;

/// Three wallets, two escrows (one open), two receipts (one linked).
fn world() -> World {
    let mut world = World::usual();
    world.settles(grant(NOW, 1, 7, 50_000));
    world.settles(open(NOW, 7, 1, 8, 1_000, NOW + 500_000));
    world.settles(open(NOW, 7, 2, 9, 2_000, NOW + 500_000));
    world.settles(claim(NOW, 8, 1, 7, NOW + 400_000, 1));
    world.settles(claim(NOW, 8, 2, 9, NOW + 400_000, 0));
    world.settles(close(4, NOW, 7, 3, 2));
    world.settles(transfer(NOW, 7, 4, 9, 3));
    assert_eq!(world.header, [1, 0, NOW, 50_000, 3, 2, 2, 7]);
    world
}

#[track_caller]
fn after(change: impl Fn(&mut World)) -> bool {
    let mut w = world();
    change(&mut w);
    let sound = w.sound();
    let before = w.clone();
    let (answer, word) = submit(&mut w.tables(), &[]);
    assert_eq!((answer, word), (if sound { 3 } else { 2 }, 0));
    assert!(w == before);
    sound
}

#[test]
fn header_clauses() {
    assert!(after(|_| ()));
    assert!(!after(|w| w.header[0] = 0));
    assert!(!after(|w| w.header[0] = 2));
    assert!(after(|w| w.header[1] = 1));
    assert!(!after(|w| w.header[1] = 2));
    assert!(after(|w| w.header[2] = TIME));
    assert!(!after(|w| w.header[2] = TIME + 1));
    assert!(!after(|w| w.header[3] += 1));
    for count in 4..8 {
        assert!(!after(|w| w.header[count] = u64::MAX));
        assert!(!after(|w| w.header[count] = 33));
    }
    // The journal's and the receipts' last rows may be forgotten.
    assert!(after(|w| w.header[7] = 0));
    assert!(after(|w| w.header[6] = 0));
    // A linked or open escrow may not.
    assert!(after(|w| w.header[5] = 1));
    assert!(!after(|w| w.header[5] = 0));
}

#[test]
fn wallet_clauses() {
    assert!(!after(|w| w.wallets[0] = 0));
    assert!(!after(|w| w.wallets[0] = 70));
    assert!(!after(|w| w.wallets[6] = 7));
    assert!(!after(|w| w.wallets[1] += 1));
    assert!(!after(|w| w.wallets[1] = u64::MAX));
    assert!(!after(|w| w.wallets[2] += 1));
    // Since request 6/13 it may be 2, also with credits, locked or not (7), with an open escrow
    // to it (8) and with none of them; and that of all.
    for row in [0, 6, 12] {
        assert!(after(|w| w.wallets[row + 3] = 1));
        assert!(after(|w| w.wallets[row + 3] = 2));
        for word in [3, 4, 258, u64::MAX - 1, u64::MAX] {
            assert!(!after(|w| w.wallets[row + 3] = word));
        }
    }
    assert!(after(|w| [3, 9, 15]
        .iter()
        .for_each(|&at| w.wallets[at] = 2)));
    // The credits of a closed wallet are counted as before.
    for word in [1, 2] {
        assert!(!after(|w| {
            w.wallets[3] = 2;
            w.wallets[word] += 1;
        }));
    }
    assert!(after(|w| w.wallets[4] = u64::MAX));
    assert!(after(|w| w.wallets[5] = u64::MAX));
    // Moving a credit from locked to balance keeps the total only.
    assert!(!after(|w| {
        w.wallets[1] += 1;
        w.wallets[2] -= 1;
    }));
    // A fourth wallet with an id that is there, or none.
    let fourth = |id: u64| {
        after(move |w| {
            w.header[4] = 4;
            w.wallets[18..24].copy_from_slice(&[id, 0, 0, 0, 0, 0]);
        })
    };
    assert!(fourth(10));
    assert!(!fourth(7));
    assert!(!fourth(9));
    assert!(!fourth(0));
}

#[test]
fn granted_total_is_at_most_ten_to_the_eighteenth() {
    let most = 1_000_000_000_000_000_000;
    let with = |extra: u64| {
        after(move |w| {
            w.wallets[1] = most - 4_000 + extra + 997;
            w.header[3] = most + extra;
        })
    };
    // 8 has 0, 9 has 2,003, 7 has 1,000 locked.
    assert!(with(0));
    assert!(!with(1));
}

#[test]
fn escrow_clauses() {
    for time in [3, 5, 6] {
        assert!(after(|w| w.escrows[time] = TIME));
        assert!(!after(|w| w.escrows[time] = TIME + 1));
        assert!(!after(|w| w.escrows[8 + time] = TIME + 1));
    }
    for state in [0, 5, u64::MAX] {
        assert!(!after(|w| w.escrows[8 + 4] = state));
    }
    for state in [2, 3, 4] {
        assert!(after(|w| w.escrows[8 + 4] = state));
        // The open one's credits would hang.
        assert!(!after(|w| w.escrows[4] = state));
    }
    assert!(!after(|w| w.escrows[8 + 4] = 1));
    assert!(!after(|w| w.escrows[8] = 70));
    assert!(!after(|w| w.escrows[8 + 1] = 70));
    assert!(!after(|w| w.escrows[8 + 1] = 7));
    assert!(after(|w| w.escrows[8 + 1] = 8));
    assert!(!after(|w| w.escrows[8 + 2] = 0));
    assert!(after(|w| w.escrows[8 + 2] = MOST));
    assert!(!after(|w| w.escrows[8 + 2] = MOST + 1));
    assert!(!after(|w| w.escrows[2] += 1));
    assert!(after(|w| w.escrows[7] = u64::MAX));
}

#[test]
fn receipt_clauses() {
    for time in [3, 6, 7] {
        assert!(after(|w| w.receipts[time] = TIME));
        assert!(!after(|w| w.receipts[time] = TIME + 1));
    }
    assert!(after(|w| w.receipts[4] = 1));
    assert!(!after(|w| w.receipts[4] = 2));
    for state in 1..=4 {
        assert!(after(|w| w.receipts[5] = state));
    }
    assert!(!after(|w| w.receipts[5] = 0));
    assert!(!after(|w| w.receipts[5] = 5));
    // Linked: the parties must be the escrow's.
    assert!(!after(|w| w.receipts[0] = 9));
    assert!(!after(|w| w.receipts[1] = 9));
    assert!(!after(|w| w.receipts[2] = 2));
    assert!(!after(|w| w.receipts[2] = 3));
    assert!(!after(|w| w.receipts[2] = u64::MAX));
    assert!(after(|w| w.receipts[2] = 0));
    // Unlinked: anyone.
    assert!(after(|w| w.receipts[14] = 0));
    assert!(after(|w| w.receipts[14 + 1] = u64::MAX));
    for free in 8..14 {
        assert!(after(|w| w.receipts[free] = u64::MAX));
    }
}

#[test]
fn journal_clauses() {
    assert!(after(|w| w.journal[5] = TIME));
    assert!(!after(|w| w.journal[5] = TIME + 1));
    for op in [2, 3] {
        assert!(!after(|w| w.journal[2..5].copy_from_slice(&[op, 9, 0])));
        assert!(after(|w| w.journal[2..5].copy_from_slice(&[op, 9, 1])));
        assert!(after(|w| w.journal[2..5].copy_from_slice(&[op, 9, MOST])));
        let over = MOST + 1;
        assert!(!after(|w| w.journal[2..5].copy_from_slice(&[op, 9, over])));
    }
    for op in [0, 1, 4, 11, 12, u64::MAX] {
        let most = u64::MAX;
        assert!(after(|w| w.journal[2..5].copy_from_slice(&[op, 9, most])));
    }
    for free in [0, 1, 3, 6, 7] {
        assert!(after(|w| w.journal[free] = u64::MAX));
    }
}

#[test]
fn wrong_lengths_are_not_sound_and_cannot_start_afresh() {
    let wrong: [fn(&mut World); 10] = [
        |w| w.header.clear(),
        |w| w.header.push(0),
        |w| w.wallets.clear(),
        |w| w.wallets.resize(1_025 * 6, 0),
        |w| w.escrows.truncate(63),
        |w| w.escrows.resize(4_097 * 8, 0),
        |w| w.receipts.truncate(13),
        |w| w.receipts.resize(4_097 * 14, 0),
        |w| w.journal.clear(),
        |w| w.journal.resize(8_193 * 8, 0),
    ];
    for change in wrong {
        let mut w = world();
        change(&mut w);
        let before = w.clone();
        assert!(!w.sound());
        assert_eq!(fresh(&mut w.tables()), 1);
        assert!(w == before);
    }
    let mut w = world();
    w.wallets.resize(1_024 * 6, 0);
    w.escrows.resize(4_096 * 8, 0);
    w.receipts.resize(4_096 * 14, 0);
    w.journal.resize(8_192 * 8, 0);
    assert!(w.sound());
    let before = w.clone();
    assert_eq!(fresh(&mut w.tables()), 0);
    assert_eq!(w.header, [1, 0, 0, 0, 0, 0, 0, 0]);
    w.header = before.header.clone();
    assert!(w == before);
}
