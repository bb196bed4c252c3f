//! Section "Lent tables": lengths, starting afresh, decoding and encoding.

use std::collections::HashMap;

use crate::rows::{flag, Entry, Escrow, Frozen, Receipt, Row, Wallet};
use crate::wallets::FoundWallet;

/// "Header, exactly 8 words".
pub const HEADER_WORDS: usize = 8;

/// "Five lent slices of 64-bit words."
pub struct Tables<'a> {
    pub header: &'a mut [u64],
    pub wallets: &'a mut [u64],
    pub escrows: &'a mut [u64],
    pub receipts: &'a mut [u64],
    pub journal: &'a mut [u64],
}

/// The rows that fit in a table; none for a wrong length. "Each table has at
/// least one row and a whole number of rows", and at most its number of rows.
pub fn rows_that_fit<R: Row>(table: &[u64]) -> Option<usize> {
    let rows = table.len() / R::WORDS;
    if table.len() % R::WORDS == 0 && (1..=R::MOST_ROWS).contains(&rows) {
        Some(rows)
    } else {
        None
    }
}

/// No "table's slice has a wrong length".
pub fn lengths_right(tables: &Tables<'_>) -> bool {
    tables.header.len() == HEADER_WORDS
        && rows_that_fit::<Wallet>(tables.wallets).is_some()
        && rows_that_fit::<Escrow>(tables.escrows).is_some()
        && rows_that_fit::<Receipt>(tables.receipts).is_some()
        && rows_that_fit::<Entry>(tables.journal).is_some()
}

/// "Starting afresh answers 1 for a wrong length; otherwise it answers 0, sets
/// the header to 1 and seven zeros and touches nothing else."
pub fn fresh(tables: &mut Tables<'_>) -> u64 {
    if !lengths_right(tables) {
        return 1;
    }
    tables.header.copy_from_slice(&[1, 0, 0, 0, 0, 0, 0, 0]);
    0
}

/// The written rows of one table, and how many rows it has room for.
pub struct Written<R> {
    pub rows: Vec<R>,
    pub room: usize,
}

impl<R: Row> Written<R> {
    /// None for a wrong length, a count not within the table, or a row that is
    /// in no sound ledger.
    fn decode(table: &[u64], count: u64) -> Option<Written<R>> {
        let room = rows_that_fit::<R>(table)?;
        let count = usize::try_from(count).ok().filter(|&c| c <= room)?;
        let mut rows = Vec::with_capacity(count + 1);
        for words in table.chunks_exact(R::WORDS).take(count) {
            rows.push(R::from_words(words)?);
        }
        Some(Written { rows, room })
    }

    /// "Words of unwritten rows may hold anything and stay."
    fn encode(&self, table: &mut [u64]) {
        for (row, words) in self.rows.iter().zip(table.chunks_exact_mut(R::WORDS)) {
            row.put_words(words);
        }
    }

    /// "no unwritten row".
    pub fn is_full(&self) -> bool {
        self.rows.len() >= self.room
    }

    /// "Row N of a table is counted from 1." None for "no such written row".
    pub fn numbered(&self, number: u64) -> Option<&R> {
        self.rows.get(place(number)?)
    }

    pub fn numbered_mut(&mut self, number: u64) -> Option<&mut R> {
        self.rows.get_mut(place(number)?)
    }

    /// "A new row takes the first unwritten place." Its row number.
    pub fn add(&mut self, row: R) -> u64 {
        self.rows.push(row);
        self.rows.len() as u64
    }
}

fn place(number: u64) -> Option<usize> {
    usize::try_from(number.checked_sub(1)?).ok()
}

/// The whole ledger, decoded.
pub struct Ledger {
    pub edition: u64,
    pub system_frozen: bool,
    pub clock: u64,
    pub granted: u64,
    pub wallets: Written<Wallet>,
    pub escrows: Written<Escrow>,
    pub receipts: Written<Receipt>,
    pub journal: Written<Entry>,
    /// From a wallet's id to its place in `wallets.rows`.
    pub wallet_places: HashMap<u64, usize>,
}

impl Ledger {
    fn wallet_place(&self, id: u64) -> Option<usize> {
        self.wallet_places.get(&id).copied()
    }

    /// "tell a closed wallet from a missing and a live one".
    pub fn wallet(&self, id: u64) -> FoundWallet<&Wallet> {
        let place = self.wallet_place(id);
        match place.and_then(|place| self.wallets.rows.get(place)) {
            Some(wallet) => FoundWallet::written(wallet, wallet.frozen == Frozen::Closed),
            None => FoundWallet::Missing,
        }
    }

    pub fn wallet_mut(&mut self, id: u64) -> FoundWallet<&mut Wallet> {
        let place = self.wallet_place(id);
        match place.and_then(|place| self.wallets.rows.get_mut(place)) {
            Some(wallet) => {
                let closed = wallet.frozen == Frozen::Closed;
                FoundWallet::written(wallet, closed)
            }
            None => FoundWallet::Missing,
        }
    }

    pub fn add_wallet(&mut self, wallet: Wallet) {
        self.wallet_places
            .insert(wallet.id, self.wallets.rows.len());
        self.wallets.add(wallet);
    }
}

/// "Header, exactly 8 words: edition (1), system frozen (0/1), last clock,
/// granted total, then rows written in wallets, escrows, receipts, journal."
/// None if a length, count, flag or state is wrong.
pub fn decode(tables: &Tables<'_>) -> Option<Ledger> {
    if tables.header.len() != HEADER_WORDS {
        return None;
    }
    let header = &tables.header;
    let wallets: Written<Wallet> = Written::decode(tables.wallets, header[4])?;
    let wallet_places = wallets
        .rows
        .iter()
        .enumerate()
        .map(|(place, wallet)| (wallet.id, place))
        .collect();
    Some(Ledger {
        edition: header[0],
        system_frozen: flag(header[1])?,
        clock: header[2],
        granted: header[3],
        wallets,
        escrows: Written::decode(tables.escrows, header[5])?,
        receipts: Written::decode(tables.receipts, header[6])?,
        journal: Written::decode(tables.journal, header[7])?,
        wallet_places,
    })
}

/// Back into the slices it was decoded from.
pub fn encode(ledger: &Ledger, tables: &mut Tables<'_>) {
    tables.header.copy_from_slice(&[
        ledger.edition,
        u64::from(ledger.system_frozen),
        ledger.clock,
        ledger.granted,
        ledger.wallets.rows.len() as u64,
        ledger.escrows.rows.len() as u64,
        ledger.receipts.rows.len() as u64,
        ledger.journal.rows.len() as u64,
    ]);
    ledger.wallets.encode(tables.wallets);
    ledger.escrows.encode(tables.escrows);
    ledger.receipts.encode(tables.receipts);
    ledger.journal.encode(tables.journal);
}
