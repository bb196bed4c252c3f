//! Ledgers written by hand, as no history leaves them, and what submissions to them come to. The
//! second program answers here.

// no test uses all of it
#![allow(dead_code)]

use differential::record::encode;
use differential::twin::{lent, World};
use milebeacon::{Envelope, Sizes, Submission, Tables};

pub const NOW: u64 = 1_000_000_000;

pub const LIVE: u64 = 0;
pub const FROZEN: u64 = 1;
pub const CLOSED: u64 = 2;

/// A wallet: its id, its balance and its frozen word. Its caps allow 500 at once and 800 a day.
pub type Wallet = (u64, u64, u64);
/// An escrow: from, to, amount and deadline, and its state.
pub type Escrow = (u64, u64, u64, u64, u64);

pub const OPEN: u64 = 1;
pub const ENDED: u64 = 3;

/// A sound ledger of these wallets and escrows, with one row more in each table.
pub fn ledger(wallets: &[Wallet], escrows: &[Escrow]) -> World {
    let mut world = Tables::zeros(Sizes {
        wallets: wallets.len() + 1,
        escrows: escrows.len() + 1,
        receipts: 2,
        journal: 2,
    });
    let mut granted = 0;
    for (row, &(id, balance, frozen)) in world.wallets.chunks_exact_mut(6).zip(wallets) {
        let own = escrows.iter().filter(|row| row.0 == id && row.4 == OPEN);
        let locked: u64 = own.map(|row| row.2).sum();
        granted += balance + locked;
        row.copy_from_slice(&[id, balance, locked, frozen, 500, 800]);
    }
    for (row, &(from, to, amount, deadline, state)) in
        world.escrows.chunks_exact_mut(8).zip(escrows)
    {
        row[..5].copy_from_slice(&[from, to, amount, deadline, state]);
    }
    let [wallets, escrows] = [wallets.len(), escrows.len()].map(|count| count as u64);
    let header = [1, 0, NOW, granted, wallets, escrows, 0, 0];
    world.header.copy_from_slice(&header);
    world
}

/// The same without a free row in one table, by the place of its count in the header: the rows are
/// taken away or written.
pub fn full(mut world: World, place: usize) -> World {
    let rows = world.header[place] as usize;
    match place {
        4 => world.wallets.truncate(rows * 6),
        5 => world.escrows.truncate(rows * 8),
        6 => {
            world.header[6] = 2;
            // accepted
            world
                .receipts
                .chunks_exact_mut(14)
                .for_each(|row| row[5] = 2);
        }
        _ => world.header[7] = (world.journal.len() / 8) as u64,
    }
    world
}

pub fn by(signer: u64) -> Envelope {
    Envelope::new(NOW, signer, 99)
}

pub fn admin(signer: u64) -> Envelope {
    by(signer).by_admin()
}

/// The answer of the second program.
pub fn answer(world: &World, submission: Submission) -> u64 {
    after(world, submission).0
}

/// The same, and the tables that it leaves.
pub fn after(world: &World, submission: Submission) -> (u64, World) {
    let mut after = world.clone();
    let (answer, _) = second::submit(&mut lent(&mut after), &encode(&submission));
    assert!(answer != 2, "the ledger is not sound");
    (answer, after)
}

/// What a test expects of a submission: the answer and the ways.
pub fn ways<const N: usize>(answer: u64, ways: [&str; N]) -> (u64, Vec<String>) {
    (answer, ways.map(str::to_owned).to_vec())
}
