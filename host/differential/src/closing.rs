//! Closes that settled, or were refused because something is left in the wallet.
//!
//! A program that does not ask for all that may be left, or asks for more, answers such submissions
//! otherwise and no other; so a run must come to them. They are worked out here from the tables, by
//! neither program.

use milebeacon::{EscrowRow, EscrowState, Ledger, ReceiptRow, ReceiptState, WalletRow};

use crate::left::{Left, Recipients};
use crate::reached::{holding, Reached};
use crate::record::word;
use crate::twin::{Began, World};

/// What a run must come to, each at least once, and how it is told. An escrow is one to the wallet
/// that is open; stale if its deadline has passed. Where it does not say so, it may be stale or not.
const WANTED: [&str; 29] = [
    "close settled, on a ledger begun afresh",
    "close settled, on a lent ledger",
    "close settled, on a frozen system",
    "close settled, of a frozen wallet",
    "close settled, of the first wallet of several",
    "close settled, of the last wallet of several",
    "close settled, of the signer's own wallet",
    "close settled, by a signer without a wallet",
    "close settled, by a signer whose wallet is frozen",
    "close settled, beside open escrows of others",
    "close settled, with an escrow to it that has ended",
    "close settled, with an escrow from it that has ended",
    "close settled, with a pending receipt that it provided",
    "close settled, with a pending receipt that it requested",
    "close answered 42 by balance alone",
    "close answered 42 by a balance of 1 alone",
    "close answered 42 by locked credits alone",
    "close answered 42 by 1 locked credit alone",
    "close answered 42 by an escrow in time alone",
    "close answered 42 by a stale escrow alone",
    "close answered 42 by an escrow from a closed wallet alone",
    "close answered 42 by balance and locked credits",
    "close answered 42 by balance and an escrow",
    "close answered 42 by locked credits and an escrow",
    "close answered 42 by all three",
    "close answered 42, of a frozen wallet",
    "close answered 42, on a frozen system",
    "close answered 42, on a full journal",
    "close of wallet 0 answered 16",
];

const CLOSE: u8 = 12;

/// Counts of the submissions that were decided so.
pub fn none() -> Reached {
    Reached::none("closes by what is left in the wallet", &WANTED)
}

/// What a submission with this answer came to, given the tables before it and how they began: nothing
/// unless it is a close that came to its own checks.
pub fn decided(before: &World, record: &[u8], answer: u64, began: Began) -> Vec<String> {
    if record.get(2) != Some(&CLOSE) || !matches!(answer, 0 | 16 | 42) {
        return Vec::new();
    }
    let ledger = Ledger::over(before.as_ref());
    let close = Close {
        now: word(record, 0),
        signer: word(record, 1),
        target: word(record, 5),
        ledger: &ledger,
        full: before.header[7] == (before.journal.len() / 8) as u64,
        began,
    };
    match answer {
        0 => close.settled(),
        42 => close.kept(),
        _ => holding([(close.target == 0, "close of wallet 0 answered 16")]).collect(),
    }
}

/// A close, and the ledger before it.
struct Close<'a> {
    now: u64,
    signer: u64,
    target: u64,
    ledger: &'a Ledger<&'a [u64]>,
    full: bool,
    began: Began,
}

impl Close<'_> {
    fn wallet(&self, id: u64) -> Option<WalletRow<'_>> {
        self.ledger.wallets().find(|row| row.id() == id)
    }

    fn settled(&self) -> Vec<String> {
        let id = self.target;
        let signer = self.wallet(self.signer);
        let open = Some(EscrowState::Open);
        let ended = |party: fn(&EscrowRow<'_>) -> u64| {
            let mut rows = self.ledger.escrows();
            rows.any(|row| row.state() != open && party(&row) == id)
        };
        let pending = |party: fn(&ReceiptRow<'_>) -> u64| {
            let mut rows = self.ledger.receipts();
            rows.any(|row| row.state() == Some(ReceiptState::Pending) && party(&row) == id)
        };
        let several = self.ledger.wallets().count() > 1;
        let is = |row: Option<WalletRow<'_>>| row.map_or(false, |row| row.id() == id);
        let mut escrows = self.ledger.escrows();
        let ways = [
            (self.ledger.is_frozen(), "on a frozen system"),
            (
                self.wallet(id).map_or(false, |row| row.is_frozen()),
                "of a frozen wallet",
            ),
            (
                several && is(self.ledger.wallets().next()),
                "of the first wallet of several",
            ),
            (
                several && is(self.ledger.wallets().last()),
                "of the last wallet of several",
            ),
            (self.signer == id, "of the signer's own wallet"),
            (signer.is_none(), "by a signer without a wallet"),
            (
                signer.map_or(false, |row| row.is_frozen()),
                "by a signer whose wallet is frozen",
            ),
            (
                escrows.any(|row| row.state() == open),
                "beside open escrows of others",
            ),
            (ended(|row| row.to()), "with an escrow to it that has ended"),
            (
                ended(|row| row.from()),
                "with an escrow from it that has ended",
            ),
            (
                pending(|row| row.provider()),
                "with a pending receipt that it provided",
            ),
            (
                pending(|row| row.requester()),
                "with a pending receipt that it requested",
            ),
        ];
        let mut all = vec![format!("close settled, on {}", self.began)];
        all.extend(holding(ways).map(|way| format!("close settled, {way}")));
        all
    }

    /// Refused because something is left.
    fn kept(&self) -> Vec<String> {
        let wallet = match self.wallet(self.target) {
            Some(wallet) => wallet,
            None => return Vec::new(),
        };
        let left = Recipients::of(self.ledger, self.now).left(&wallet);
        let escrow = left.escrow || left.stale_escrow;
        let only =
            |balance, locked, open| (left.balance, left.locked, escrow) == (balance, locked, open);
        let from_closed = self.ledger.escrows().any(|row| {
            let open = row.state() == Some(EscrowState::Open);
            let from = self.wallet(row.from());
            open && row.to() == self.target && from.map_or(false, |row| row.is_closed())
        });
        let by = [
            (left == Left::BALANCE, "balance alone"),
            (
                left == Left::BALANCE && wallet.balance() == 1,
                "a balance of 1 alone",
            ),
            (left == Left::LOCKED, "locked credits alone"),
            (
                left == Left::LOCKED && wallet.locked() == 1,
                "1 locked credit alone",
            ),
            (left == Left::ESCROW, "an escrow in time alone"),
            (left == Left::STALE_ESCROW, "a stale escrow alone"),
            (
                only(false, false, true) && from_closed,
                "an escrow from a closed wallet alone",
            ),
            (only(true, true, false), "balance and locked credits"),
            (only(true, false, true), "balance and an escrow"),
            (only(false, true, true), "locked credits and an escrow"),
            (only(true, true, true), "all three"),
        ];
        let also = [
            (wallet.is_frozen(), "of a frozen wallet"),
            (self.ledger.is_frozen(), "on a frozen system"),
            (self.full, "on a full journal"),
        ];
        let by = holding(by).map(|way| format!("close answered 42 by {way}"));
        let also = holding(also).map(|way| format!("close answered 42, {way}"));
        by.chain(also).collect()
    }
}
