//! Ledgers that are full but for a few rows.

use milebeacon::{Ledger, Sizes, Tables};

/// The clock of a filled ledger.
pub const NOW: u64 = 1_700_000_000_000;
/// The credits of each wallet.
const BALANCE: u64 = 1_000_000_000;
/// Free rows for escrows and journal rows.
pub const ROOM: usize = 16;

/// How the parties' ids look. The last three are ids that parties might choose to make a search
/// slow; `docs/PERFORMANCE-sound.md` says how the worst were looked for.
#[derive(Clone, Copy, PartialEq, Eq)]
pub enum Ids {
    /// 1001, 1002, ..
    InARow,
    /// Any 64 bits.
    Random,
    /// Equal in their low 13 bits: every walk through the core's index starts at one root.
    OneRoot,
    /// Equal in their low 54 bits.
    Alike,
    /// Chains of twelve, each wallet met on the way to the next, and every escrow between the ends
    /// of two of them.
    Chains,
}

/// Every kind, with its name in a report.
pub const KINDS: [(&str, Ids); 5] = [
    ("in a row", Ids::InARow),
    ("random", Ids::Random),
    ("all at one root of the index", Ids::OneRoot),
    ("alike in 54 bits", Ids::Alike),
    ("chains of 12: the worst found", Ids::Chains),
];

/// How many chains there are, and how long each is.
const CHAINS: usize = 85;
const LENGTH: usize = 12;

/// The id of the wallet in this place.
pub fn id(ids: Ids, place: usize) -> u64 {
    let number = place as u64;
    match ids {
        Ids::InARow => 1_001 + number,
        Ids::Random => mixed(number + 1),
        Ids::OneRoot => (number + 1) << 13,
        Ids::Alike => 7 + (number << 54),
        Ids::Chains => {
            let (link, chain) = (number / CHAINS as u64, number % CHAINS as u64);
            match link {
                0 => chain + 1,
                _ if place < CHAINS * LENGTH => chain + 1 + (1 << (13 + 5 * (link - 1))),
                _ => 4_000 + number,
            }
        }
    }
}

/// Bits that look like chance (the last steps of splitmix64; no two numbers give the same).
pub fn mixed(number: u64) -> u64 {
    let mut bits = number.wrapping_mul(0x9E37_79B9_7F4A_7C15);
    bits = (bits ^ (bits >> 30)).wrapping_mul(0xBF58_476D_1CE4_E5B9);
    bits = (bits ^ (bits >> 27)).wrapping_mul(0x94D0_49BB_1331_11EB);
    bits ^ (bits >> 31)
}

/// The places of an escrow's two parties.
fn parties(ids: Ids, place: usize, wallets: usize) -> (usize, usize) {
    let (first, count) = match ids {
        Ids::Chains if CHAINS * LENGTH <= wallets => (CHAINS * (LENGTH - 1), CHAINS),
        _ => (0, wallets),
    };
    let (from, to) = (place % count, (place * 7 + 1) % count);
    let to = if to == from { (to + 1) % count } else { to };
    (first + from, first + to)
}

/// A sound ledger with all rows written but [`ROOM`] escrows and journal rows. A quarter of the
/// escrows are open, receipts are linked to escrows, and the journal holds transfers of the last
/// day.
pub fn filled(sizes: Sizes, ids: Ids) -> Ledger {
    let mut tables = Tables::zeros(sizes);
    let wallets = sizes.wallets;
    let (escrows, journal) = (sizes.escrows - ROOM, sizes.journal - ROOM);
    let mut locked = vec![0; wallets];
    for (place, row) in tables.escrows.chunks_exact_mut(8).take(escrows).enumerate() {
        let (from, to) = parties(ids, place, wallets);
        let amount = 1 + place as u64 % 1_000;
        let open = place % 4 == 0;
        if open {
            locked[from] += amount;
        }
        let (state, closed_at) = if open { (1, 0) } else { (2, NOW) };
        let deadline = NOW + 3_600_000;
        let (from, to) = (id(ids, from), id(ids, to));
        row.copy_from_slice(&[
            from,
            to,
            amount,
            deadline,
            state,
            NOW - 1_000,
            closed_at,
            from,
        ]);
    }
    for (place, row) in tables.receipts.chunks_exact_mut(14).enumerate() {
        let escrow = place % escrows;
        let (from, to) = (tables.escrows[escrow * 8], tables.escrows[escrow * 8 + 1]);
        row[..6].copy_from_slice(&[to, from, escrow as u64 + 1, NOW + 3_600_000, 0, 1]);
        row[6] = NOW - 500;
    }
    for (place, row) in tables.journal.chunks_exact_mut(8).take(journal).enumerate() {
        let signer = id(ids, place % wallets);
        row.copy_from_slice(&[signer, 1_000 + place as u64, 2, 0, 1, NOW - 1_000, 0, 0]);
    }
    for (place, row) in tables.wallets.chunks_exact_mut(6).enumerate() {
        row.copy_from_slice(&[id(ids, place), BALANCE, locked[place], 0, BALANCE, BALANCE]);
    }
    let granted = wallets as u64 * BALANCE + locked.iter().sum::<u64>();
    let counts = [wallets, escrows, sizes.receipts, journal].map(|count| count as u64);
    let [wallets, escrows, receipts, journal] = counts;
    let header = [1, 0, NOW, granted, wallets, escrows, receipts, journal];
    tables.header.copy_from_slice(&header);
    let mut ledger = Ledger::over(tables);
    assert!(ledger.is_sound(), "the filled ledger is sound");
    ledger
}
