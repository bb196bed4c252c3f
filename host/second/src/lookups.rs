//! Section "Row lookups".

use crate::rows::{Escrow, Frozen, Receipt, Row, Wallet, FROZEN_WORD};
use crate::tables::{rows_that_fit, HEADER_WORDS};
use crate::wallets::FoundWallet;

/// The written part of a table, whose count is the header's word at `place`:
/// none "for a wrong header or table length, a written count larger than the
/// table".
fn written_part<'a, R: Row>(header: &[u64], place: usize, table: &'a [u64]) -> Option<&'a [u64]> {
    if header.len() != HEADER_WORDS {
        return None;
    }
    let room = rows_that_fit::<R>(table)?;
    let count = usize::try_from(header[place]).ok()?;
    if count > room {
        return None;
    }
    Some(&table[..count * R::WORDS])
}

/// "the core hands back that very row of the caller's table; for ... a number
/// not written, an empty part".
fn row<'a, R: Row>(header: &[u64], place: usize, table: &'a [u64], number: u64) -> &'a [u64] {
    let found = written_part::<R>(header, place, table).and_then(|written| {
        let before = usize::try_from(number.checked_sub(1)?).ok()?;
        written.chunks_exact(R::WORDS).nth(before)
    });
    found.unwrap_or(&[])
}

/// "Asked for an escrow ... number".
pub fn escrow_row<'a>(header: &[u64], escrows: &'a [u64], number: u64) -> &'a [u64] {
    row::<Escrow>(header, 5, escrows, number)
}

/// "Asked for a ... receipt number".
pub fn receipt_row<'a>(header: &[u64], receipts: &'a [u64], number: u64) -> &'a [u64] {
    row::<Receipt>(header, 6, receipts, number)
}

/// "the number of the first written row with that id, or 0 if there is none,
/// the id is 0, or a length or count is wrong as above"; since request 6/13 it
/// tells "a closed wallet from a missing and a live one". Missing is what was
/// 0; that row's frozen word alone makes it closed.
pub fn wallet_row(header: &[u64], wallets: &[u64], id: u64) -> FoundWallet<u64> {
    if id == 0 {
        return FoundWallet::Missing;
    }
    let found = written_part::<Wallet>(header, 4, wallets).and_then(|written| {
        let mut rows = (1..).zip(written.chunks_exact(Wallet::WORDS));
        rows.find(|(_, words)| words[0] == id)
    });
    match found {
        Some((number, words)) => {
            FoundWallet::written(number, words[FROZEN_WORD] == Frozen::Closed as u64)
        }
        None => FoundWallet::Missing,
    }
}
