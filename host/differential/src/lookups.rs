//! Row lookups of both programs, on right tables and wrong ones.

use milebeacon::ffi::{self, Standing};
use milebeacon::{lookup, EscrowNumber, ReceiptNumber};
use second::FoundWallet;

use crate::damage::MOST_ROWS;
use crate::dice::Dice;
use crate::reached::Reached;
use crate::tally::Tally;
use crate::twin::{same, Difference, World};

/// What looking up wallets must find in a run, each at least once, and how it is told. Where nothing
/// is found, it would be if the length, the count or the id were not asked for.
const WANTED: [&str; 11] = [
    "live",
    "live, being frozen",
    "live, with a frozen word above 2",
    "live, before a closed row with the same id",
    "closed",
    "closed, before a row with the same id that is not",
    "missing, in a row that is not written",
    "missing, in a row of id 0",
    "missing, with a header of a wrong length",
    "missing, with wallets of a wrong length",
    "missing, with more rows written than there are",
];

/// Counts of what was found.
pub fn none() -> Reached {
    Reached::none("wallets that were looked up", &WANTED)
}

/// Where a part of a table begins, in words; the table's length for an empty part.
fn place(table: &[u64], part: &[u64]) -> usize {
    if part.is_empty() {
        return table.len();
    }
    (part.as_ptr() as usize - table.as_ptr() as usize) / std::mem::size_of::<u64>()
}

/// One escrow: that very row, of eight words.
fn escrow(header: &[u64], escrows: &[u64], number: u64) -> Result<(), Difference> {
    let second = second::escrow_row(header, escrows, number);
    let core = ffi::escrow_place(header, escrows, EscrowNumber(number));
    same("escrow's place", core, place(escrows, second))?;
    let row = lookup::escrow_row(header, escrows, EscrowNumber(number));
    same(
        "escrow's row",
        row.map_or(&[][..], |row| &row.words()[..]),
        second,
    )
    .map(drop)
}

/// One receipt: that very row, of fourteen words.
fn receipt(header: &[u64], receipts: &[u64], number: u64) -> Result<(), Difference> {
    let second = second::receipt_row(header, receipts, number);
    let core = ffi::receipt_place(header, receipts, ReceiptNumber(number));
    same("receipt's place", core, place(receipts, second))?;
    let row = lookup::receipt_row(header, receipts, ReceiptNumber(number));
    same(
        "receipt's row",
        row.map_or(&[][..], |row| &row.words()[..]),
        second,
    )
    .map(drop)
}

/// What the second program tells of a wallet, as the core says it.
fn standing(found: FoundWallet<u64>) -> Standing {
    let (state, number) = match found {
        FoundWallet::Missing => (ffi::WALLET_MISSING, 0),
        FoundWallet::Live(number) => (ffi::WALLET_LIVE, number),
        FoundWallet::Closed(number) => (ffi::WALLET_CLOSED, number),
    };
    Standing { state, number }
}

/// One wallet: whether it is missing, live or closed, and that very row, of six words.
fn wallet(header: &[u64], wallets: &[u64], id: u64) -> Result<Standing, Difference> {
    let core = ffi::wallet_row(header, wallets, id);
    let second = second::wallet_row(header, wallets, id);
    let found = same("wallet's state and row", core, standing(second))?;
    let row = lookup::wallet_row(header, wallets, id).row();
    let place = row.map_or(0, |row| place(wallets, row.words()) / 6 + 1);
    same("wallet's place", place as u64, found.number)?;
    Ok(found)
}

/// What a lookup came to, given what it found; nothing if it found nothing and no row has the id.
fn found(header: &[u64], wallets: &[u64], id: u64, found: Standing) -> Option<&'static str> {
    let rows = || wallets.chunks_exact(6);
    let row = found
        .number
        .checked_sub(1)
        .and_then(|before| rows().nth(before as usize));
    let row = match row {
        Some(row) => row,
        None => return not_found(header, wallets, id),
    };
    let written = header.get(4).map_or(0, |&count| count as usize);
    let mut later = rows().take(written).skip(found.number as usize);
    let next = later.find(|row| row[0] == id).map(|row| row[3]);
    Some(match (row[3], next) {
        (2, Some(word)) if word != 2 => "closed, before a row with the same id that is not",
        (2, _) => "closed",
        (_, Some(2)) => "live, before a closed row with the same id",
        (0, _) => "live",
        (1, _) => "live, being frozen",
        _ => "live, with a frozen word above 2",
    })
}

fn not_found(header: &[u64], wallets: &[u64], id: u64) -> Option<&'static str> {
    let mut rows = wallets.chunks_exact(6);
    let room = rows.len();
    let place = rows.position(|row| row[0] == id)?;
    let wrong = wallets.len() % 6 != 0 || room > MOST_ROWS[1];
    Some(match header.get(4) {
        Some(_) if wrong => "missing, with wallets of a wrong length",
        Some(_) if header.len() != 8 => "missing, with a header of a wrong length",
        Some(&written) if written > room as u64 => "missing, with more rows written than there are",
        Some(&written) if place as u64 >= written => "missing, in a row that is not written",
        Some(_) => "missing, in a row of id 0",
        None => "missing, with a header of a wrong length",
    })
}

/// Looks up numbers that are written, that are not, and that no table has; and all ids.
pub fn all(world: &World, dice: &mut Dice, tally: &mut Tally) -> Result<(), Difference> {
    let World {
        header,
        wallets,
        escrows,
        receipts,
        ..
    } = world;
    let count = |place: usize| header.get(place).copied().unwrap_or(0);
    let numbers = [
        0,
        1,
        2,
        dice.below(12),
        dice.edge(),
        u64::MAX,
        1 << 61,
        (1 << 60) + 1,
    ];
    let near = |count: u64| [count.wrapping_sub(1), count, count.wrapping_add(1)];
    for number in numbers.into_iter().chain(near(count(5))) {
        escrow(header, escrows, number)?;
        tally.other_calls += 1;
    }
    for number in numbers.into_iter().chain(near(count(6))) {
        receipt(header, receipts, number)?;
        tally.other_calls += 1;
    }
    let written = wallets.chunks(6).map(|row| row[0]).take(40);
    for id in written.chain(numbers) {
        let standing = wallet(header, wallets, id)?;
        let way = found(header, wallets, id, standing);
        tally
            .lookups
            .count(way.map(str::to_owned).into_iter().collect());
        tally.other_calls += 1;
    }
    Ok(())
}
