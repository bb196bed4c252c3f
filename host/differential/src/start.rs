//! The tables that a history begins with.

use milebeacon::{Sizes, Tables};

use crate::dice::Dice;
use crate::step::{LAST_TIME, MOST_AMOUNT, MOST_GRANTED};
use crate::twin::World;

/// Sizes of a few rows, so that tables are soon full.
pub fn small_sizes(dice: &mut Dice) -> Sizes {
    let scale = dice.pick(&[1, 2, 4]);
    Sizes {
        wallets: dice.between(1, 4 * scale) as usize,
        escrows: dice.between(1, 8 * scale) as usize,
        receipts: dice.between(1, 8 * scale) as usize,
        journal: dice.between(1, 64 * scale) as usize,
    }
}

/// Sizes of some more rows, so that there is room for most of what settles in a history.
pub fn roomy_sizes(dice: &mut Dice) -> Sizes {
    Sizes {
        wallets: dice.between(4, 16) as usize,
        escrows: dice.between(16, 64) as usize,
        receipts: dice.between(16, 96) as usize,
        journal: dice.between(64, 512) as usize,
    }
}

/// Tables of words by chance, as unwritten rows may hold anything.
pub fn noise(dice: &mut Dice, sizes: Sizes) -> World {
    let mut world = Tables::zeros(sizes);
    let tables = [
        &mut world.header,
        &mut world.wallets,
        &mut world.escrows,
        &mut world.receipts,
        &mut world.journal,
    ];
    for table in tables {
        let kind = dice.below(3);
        for word in table.iter_mut() {
            *word = match kind {
                0 => 0,
                1 => u64::MAX,
                _ => dice.word(),
            };
        }
    }
    world
}

/// How much of each table a lent ledger has written.
#[derive(Clone, Copy, Debug)]
pub struct Filled {
    /// Wallets, escrows, receipts, journal rows.
    pub counts: [usize; 4],
}

impl Filled {
    /// Any part of each table.
    pub fn roll(dice: &mut Dice, sizes: Sizes) -> Filled {
        let mut part = |rows: usize| match dice.below(4) {
            0 => rows,
            1 => rows.saturating_sub(1),
            _ => dice.below(rows as u64 + 1) as usize,
        };
        let wallets = part(sizes.wallets);
        let escrows = if wallets < 2 { 0 } else { part(sizes.escrows) };
        Filled {
            counts: [wallets, escrows, part(sizes.receipts), part(sizes.journal)],
        }
    }

    /// Half of each table.
    pub fn half(sizes: Sizes) -> Filled {
        let wallets = sizes.wallets / 2;
        let escrows = if wallets < 2 { 0 } else { sizes.escrows / 2 };
        Filled {
            counts: [wallets, escrows, sizes.receipts / 2, sizes.journal / 2],
        }
    }

    /// Any part of each table and half of the time all of it, of the journal less often; and half of
    /// the time so few escrows that some wallets have none.
    pub fn departed(dice: &mut Dice, sizes: Sizes) -> Filled {
        let mut part = |rows: usize, full_in: u64| match dice.below(full_in) {
            0 => rows,
            _ => dice.below(rows as u64 + 1) as usize,
        };
        let wallets = part(sizes.wallets, 2);
        let (all, few) = (part(sizes.escrows, 2), part(sizes.escrows.min(3), 4));
        let (receipts, journal) = (part(sizes.receipts, 3), part(sizes.journal, 3));
        let escrows = match wallets {
            0 | 1 => 0,
            _ => dice.pick(&[all, few]),
        };
        Filled {
            counts: [wallets, escrows, receipts, journal],
        }
    }

    /// All rows of each table, or all but a few.
    pub fn nearly_full(dice: &mut Dice, sizes: Sizes) -> Filled {
        let mut most = |rows: usize| rows.saturating_sub(dice.pick(&[0, 1, 1, 3]));
        let wallets = most(sizes.wallets);
        let escrows = if wallets < 2 { 0 } else { most(sizes.escrows) };
        Filled {
            counts: [wallets, escrows, most(sizes.receipts), most(sizes.journal)],
        }
    }
}

/// A ledger that is sound, written by hand and not by any history: its times may lie in the future,
/// its nonces may repeat, its caps may be anything.
pub fn sound(dice: &mut Dice, sizes: Sizes, filled: Filled) -> World {
    let mut world = noise(dice, sizes);
    let [wallets, escrows, receipts, journal] = filled.counts;
    let clock = dice.pick(&[0, 5_000_000, 1_700_000_000_000, LAST_TIME - 700_000_000]);
    let ids = ids(dice, wallets);
    let mut locked = vec![0; wallets];
    for row in world.escrows.chunks_exact_mut(8).take(escrows) {
        let from = dice.index(wallets);
        let to = (from + 1 + dice.index(wallets - 1)) % wallets;
        let state = dice.pick(&[1, 1, 1, 2, 3, 4]);
        let amount = amount(dice, escrows);
        if state == 1 {
            locked[from] += amount;
        }
        let (times, signer) = (
            [near(dice, clock), near(dice, clock), near(dice, clock)],
            dice.edge(),
        );
        row.copy_from_slice(&[
            ids[from], ids[to], amount, times[0], state, times[1], times[2], signer,
        ]);
    }
    let granted = write_wallets(dice, &mut world, &ids, &locked);
    for place in 0..receipts {
        let row = receipt(dice, &world, escrows, clock);
        world.receipts[place * 14..][..14].copy_from_slice(&row);
    }
    for row in world.journal.chunks_exact_mut(8).take(journal) {
        row.copy_from_slice(&entry(dice, &ids, clock));
    }
    let frozen = u64::from(dice.once_in(12));
    let counts = filled.counts.map(|count| count as u64);
    world.header.copy_from_slice(&[
        1, frozen, clock, granted, counts[0], counts[1], counts[2], counts[3],
    ]);
    world
}

/// A sound ledger with about half of its wallets closed, whatever they have. Of all wallets some have
/// no balance; and most have caps that allow any payment, or one cap that allows little.
pub fn departed(dice: &mut Dice, sizes: Sizes) -> World {
    let filled = Filled::departed(dice, sizes);
    let mut world = sound(dice, sizes, filled);
    let written = world.header[4] as usize;
    for wallet in world.wallets.chunks_exact_mut(6).take(written) {
        wallet[3] = dice.pick(&[0, 0, 0, 1, 2, 2, 2, 2]);
        match dice.below(6) {
            0 => {}
            1 => wallet[4..].copy_from_slice(&[50, u64::MAX]),
            2 => wallet[4..].copy_from_slice(&[u64::MAX, 50]),
            _ => wallet[4..].fill(u64::MAX),
        }
        if dice.once_in(4) {
            world.header[3] -= wallet[1];
            wallet[1] = 0;
        }
    }
    world.header[1] = u64::from(dice.once_in(5));
    world
}

/// Distinct ids, none 0: in a row, spread out, or alike in all bits but the highest or a few in
/// between, as a party might choose them to make a search by hash slow.
fn ids(dice: &mut Dice, count: usize) -> Vec<u64> {
    let first = dice.between(1, 9);
    let kind = dice.below(6);
    (0..count as u64)
        .map(|k| match kind {
            0 => first + k,
            1 => u64::MAX - k,
            2 => first + (k << 54),
            3 => first + (k << 50),
            4 => first + (k << 20),
            _ => first + (k << 13),
        })
        .collect()
}

fn amount(dice: &mut Dice, escrows: usize) -> u64 {
    match dice.below(8) {
        0 | 1 => 1,
        2 if escrows <= 100 => MOST_AMOUNT,
        _ => dice.between(1, 1_000_000),
    }
}

/// A time not far from the clock, before or after it, or at either end.
fn near(dice: &mut Dice, clock: u64) -> u64 {
    let span = dice.pick(&[0, 1, 1_000, 300_000, 86_400_000, 86_400_001, 604_800_000]);
    match dice.below(8) {
        0 => 0,
        1 if dice.once_in(4) => LAST_TIME,
        2..=4 => clock.saturating_sub(span),
        _ => (clock + span).min(LAST_TIME),
    }
}

/// Writes the wallets, and yields the granted total.
fn write_wallets(dice: &mut Dice, world: &mut World, ids: &[u64], locked: &[u64]) -> u64 {
    let mut granted: u64 = locked.iter().sum();
    let rows = world.wallets.chunks_exact_mut(6);
    for ((row, &id), &locked) in rows.zip(ids).zip(locked) {
        let balance = dice.pick(&[0, 1, 100, 5_000, 2_000_000, 3_000_000_000, MOST_AMOUNT]);
        let balance = if granted + balance > MOST_GRANTED {
            0
        } else {
            balance
        };
        granted += balance;
        // one in eight is frozen, and one in eight closed, whatever it has
        let frozen = dice.pick(&[0, 0, 0, 0, 0, 0, 1, 2]);
        let caps = [cap(dice), cap(dice)];
        row.copy_from_slice(&[id, balance, locked, frozen, caps[0], caps[1]]);
    }
    // One in four is rich, so that a grant comes to the limit.
    if dice.once_in(4) && !ids.is_empty() {
        let rest = MOST_GRANTED - granted;
        let top = rest - rest.min(dice.pick(&[0, 1, 1_000_000, MOST_AMOUNT]));
        world.wallets[1] += top;
        granted += top;
    }
    granted
}

fn cap(dice: &mut Dice) -> u64 {
    dice.pick(&[
        0,
        100,
        5_000,
        100_000_000,
        1_000_000_000,
        MOST_AMOUNT,
        u64::MAX,
    ])
}

fn receipt(dice: &mut Dice, world: &World, escrows: usize, clock: u64) -> [u64; 14] {
    let (provider, requester, link) = if escrows > 0 && !dice.once_in(3) {
        let place = dice.index(escrows);
        (
            world.escrows[place * 8 + 1],
            world.escrows[place * 8],
            place as u64 + 1,
        )
    } else {
        (dice.edge(), dice.pick(&[1, 2, 3, 4, u64::MAX]), 0)
    };
    let state = dice.pick(&[1, 1, 1, 2, 3, 4]);
    let code = dice.pick(&[0, 0, 29, u64::MAX]);
    let mut row = [0; 14];
    row[..6].copy_from_slice(&[
        provider,
        requester,
        link,
        near(dice, clock),
        dice.below(2),
        state,
    ]);
    row[6..10].copy_from_slice(&[near(dice, clock), near(dice, clock), dice.edge(), code]);
    for word in &mut row[10..] {
        *word = dice.word();
    }
    row
}

fn entry(dice: &mut Dice, ids: &[u64], clock: u64) -> [u64; 8] {
    // 8 as old disputes have it
    let operation = dice.pick(&[2, 2, 2, 2, 3, 3, 1, 7, 8, 9, 11, 12, 0, u64::MAX]);
    let amount = match operation {
        2 | 3 if dice.once_in(8) => dice.pick(&[900_000_000, MOST_AMOUNT]),
        2 | 3 => dice.pick(&[1, 50, 4_000]),
        _ => dice.edge(),
    };
    let signer = if ids.is_empty() {
        dice.edge()
    } else {
        dice.pick(ids)
    };
    let nonce = dice.pick(&[0, 1, 2, 1_000_000, 1_000_001, u64::MAX]);
    let (target, word, link) = (dice.edge(), dice.edge(), dice.edge());
    [
        signer,
        nonce,
        operation,
        target,
        amount,
        near(dice, clock),
        word,
        link,
    ]
}
