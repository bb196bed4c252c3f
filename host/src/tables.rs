//! The five tables that a ledger is made of.

use crate::rows::{EscrowRow, JournalRow, ReceiptRow, WalletRow};

/// The words of the header.
pub const HEADER_WORDS: usize = 8;

/// How many rows each table has room for.
///
/// Each is at least 1 and at most that of [`Sizes::LARGEST`].
#[derive(Clone, Copy, Debug, PartialEq, Eq, Hash)]
pub struct Sizes {
    /// Rows for wallets.
    pub wallets: usize,
    /// Rows for escrows.
    pub escrows: usize,
    /// Rows for receipts.
    pub receipts: usize,
    /// Rows for settled submissions.
    pub journal: usize,
}

impl Sizes {
    /// The tables of the program `settle`.
    pub const PROGRAM: Sizes = Sizes {
        wallets: 64,
        escrows: 128,
        receipts: 128,
        journal: 512,
    };

    /// The largest tables that the core takes.
    pub const LARGEST: Sizes = Sizes {
        wallets: 1_024,
        escrows: 4_096,
        receipts: 4_096,
        journal: 8_192,
    };
}

/// The five tables, in the order in which they are lent to the core: owned as `Tables<Vec<u64>>`,
/// or borrowed as `Tables<&mut [u64]>`.
///
/// Any lengths and any words may be lent; the core answers
/// [`BadTable`](crate::Refusal::BadTable) or [`LedgerDamaged`](crate::Refusal::LedgerDamaged) for
/// those that are no ledger.
#[derive(Clone, Copy, Debug, Default, PartialEq, Eq, Hash)]
pub struct Tables<T> {
    /// 8 words: edition, system frozen, last clock, granted total, and the rows written in each of
    /// the other tables.
    pub header: T,
    /// Rows of [`WalletRow`].
    pub wallets: T,
    /// Rows of [`EscrowRow`].
    pub escrows: T,
    /// Rows of [`ReceiptRow`].
    pub receipts: T,
    /// Rows of [`JournalRow`].
    pub journal: T,
}

impl Tables<Vec<u64>> {
    /// Tables of zeros, with room for these rows.
    pub fn zeros(sizes: Sizes) -> Tables<Vec<u64>> {
        Tables {
            header: vec![0; HEADER_WORDS],
            wallets: vec![0; sizes.wallets * WalletRow::WORDS],
            escrows: vec![0; sizes.escrows * EscrowRow::WORDS],
            receipts: vec![0; sizes.receipts * ReceiptRow::WORDS],
            journal: vec![0; sizes.journal * JournalRow::WORDS],
        }
    }
}

impl<T: AsRef<[u64]>> Tables<T> {
    /// The same tables, borrowed to be read.
    pub fn as_ref(&self) -> Tables<&[u64]> {
        Tables {
            header: self.header.as_ref(),
            wallets: self.wallets.as_ref(),
            escrows: self.escrows.as_ref(),
            receipts: self.receipts.as_ref(),
            journal: self.journal.as_ref(),
        }
    }
}

impl<T: AsMut<[u64]>> Tables<T> {
    /// The same tables, borrowed to be lent to the core.
    pub fn as_mut(&mut self) -> Tables<&mut [u64]> {
        Tables {
            header: self.header.as_mut(),
            wallets: self.wallets.as_mut(),
            escrows: self.escrows.as_mut(),
            receipts: self.receipts.as_mut(),
            journal: self.journal.as_mut(),
        }
    }
}
