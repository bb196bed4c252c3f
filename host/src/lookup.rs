//! Finding a row in lent tables.
//!
//! A found row is that very row of the caller's table. There is none for a wrong header or table
//! length, a written count larger than the table, or a number that is not written. The core hands
//! out the row's place, and this module slices the caller's table there.

use crate::ffi;
use crate::numbers::{EscrowNumber, ReceiptNumber, WalletNumber};
use crate::rows::{EscrowRow, ReceiptRow, WalletRow};
use crate::wallet::WalletState;

/// Whether the wallet with this id is missing, live or closed, and the number of its row, which is
/// the first with the id. No wallet has id 0.
///
/// ```
/// use milebeacon::{lookup, WalletNumber, WalletState};
///
/// let header = [1, 0, 0, 0, 3, 0, 0, 0]; // three wallets are written
/// let live = [7, 0, 0, 0, 100, 1_000];
/// let frozen = [8, 0, 0, 1, 100, 1_000];
/// let closed = [9, 0, 0, 2, 100, 1_000];
/// let wallets = [live, frozen, closed].concat();
///
/// let state = |id| lookup::wallet_state(&header, &wallets, id);
/// assert_eq!(state(7), WalletState::Live(WalletNumber(1)));
/// assert_eq!(state(8), WalletState::Live(WalletNumber(2)));
/// assert_eq!(state(9), WalletState::Closed(WalletNumber(3)));
/// assert_eq!(state(10), WalletState::Missing);
/// assert_eq!((state(9).number(), state(10).number()), (Some(WalletNumber(3)), None));
/// ```
pub fn wallet_state(header: &[u64], wallets: &[u64], id: u64) -> WalletState {
    let found = ffi::wallet_row(header, wallets, id);
    let number = WalletNumber(found.number);
    match found.state {
        ffi::WALLET_MISSING => WalletState::Missing,
        ffi::WALLET_LIVE => WalletState::Live(number),
        state => {
            assert_eq!(state, ffi::WALLET_CLOSED, "the core finds one of three");
            WalletState::Closed(number)
        }
    }
}

/// The wallet with this id: the same with its row.
///
/// ```
/// use milebeacon::{lookup, WalletState};
///
/// let header = [1, 0, 0, 0, 1, 0, 0, 0];
/// let wallets = [7, 0, 0, 2, 100, 1_000, 8, 0, 0, 0, 100, 1_000]; // only the first is written
/// let row = lookup::wallet_row(&header, &wallets, 7).row().unwrap();
/// assert!(row.is_closed() && !row.is_frozen());
/// assert!(std::ptr::eq(&row.words()[0], &wallets[0]));
/// assert_eq!(lookup::wallet_row(&header, &wallets, 8), WalletState::Missing);
/// ```
pub fn wallet_row<'a>(header: &[u64], wallets: &'a [u64], id: u64) -> WalletState<WalletRow<'a>> {
    wallet_state(header, wallets, id).map(|number| {
        numbered(wallets, number)
            .expect("the core gives the number of a row of this table: it is proved to")
    })
}

fn numbered(wallets: &[u64], number: WalletNumber) -> Option<WalletRow<'_>> {
    let before = usize::try_from(number.0).ok()?.checked_sub(1)?;
    WalletRow::new(wallets.chunks_exact(WalletRow::WORDS).nth(before)?)
}

/// The escrow with this number.
///
/// ```
/// use milebeacon::{lookup, EscrowNumber};
///
/// let header = [1, 0, 0, 0, 0, 2, 0, 0]; // two escrows are written
/// let escrows: Vec<u64> = (0..24).collect();
/// let row = lookup::escrow_row(&header, &escrows, EscrowNumber(2)).unwrap();
/// assert_eq!(row.amount(), 10);
/// assert!(std::ptr::eq(&row.words()[0], &escrows[8]));
/// assert!(lookup::escrow_row(&header, &escrows, EscrowNumber(3)).is_none());
/// ```
pub fn escrow_row<'a>(
    header: &[u64],
    escrows: &'a [u64],
    number: EscrowNumber,
) -> Option<EscrowRow<'a>> {
    let place = ffi::escrow_place(header, escrows, number);
    let words = escrows.get(place..place.checked_add(EscrowRow::WORDS)?)?;
    EscrowRow::new(words)
}

/// The receipt with this number.
pub fn receipt_row<'a>(
    header: &[u64],
    receipts: &'a [u64],
    number: ReceiptNumber,
) -> Option<ReceiptRow<'a>> {
    let place = ffi::receipt_place(header, receipts, number);
    let words = receipts.get(place..place.checked_add(ReceiptRow::WORDS)?)?;
    ReceiptRow::new(words)
}
