//! What a step sees of the tables that it is taken on.

use std::collections::BTreeSet;

use milebeacon::{EscrowRow, EscrowState, Ledger, ReceiptState, WalletRow};

use crate::left::Recipients;
use crate::step::DAY_MS;
use crate::twin::World;

/// A ledger to be read only. Wallets are found here by a search of its own, not by the core's.
pub struct View<'a> {
    ledger: Ledger<&'a [u64]>,
    wallet_ids: Vec<u64>,
}

/// The named words of an escrow that steps use.
#[derive(Clone, Copy)]
pub struct EscrowSeen {
    pub number: u64,
    pub from: u64,
    pub to: u64,
    pub deadline: u64,
}

/// The named words of a receipt that steps use.
#[derive(Clone, Copy)]
pub struct ReceiptSeen {
    pub number: u64,
    pub requester: u64,
    pub link: u64,
    pub deadline: u64,
    pub is_pending: bool,
}

/// The named words of a journal row that steps use.
#[derive(Clone, Copy)]
pub struct EntrySeen {
    pub signer: u64,
    pub nonce: u64,
    pub settled_at: u64,
}

/// A time; those of damaged rows are taken for the first that is none.
fn seen(time: u64) -> u64 {
    time.min(1 << 48)
}

/// The element at `pick`, counted around.
fn around<T: Copy>(list: &[T], pick: u64) -> Option<T> {
    if list.is_empty() {
        None
    } else {
        Some(list[(pick % list.len() as u64) as usize])
    }
}

impl<'a> View<'a> {
    pub fn new(world: &'a World) -> View<'a> {
        let ledger = Ledger::over(world.as_ref());
        let wallet_ids = ledger.wallets().map(|wallet| wallet.id()).collect();
        View { ledger, wallet_ids }
    }

    pub fn clock(&self) -> u64 {
        seen(self.ledger.last_clock())
    }

    pub fn granted(&self) -> u64 {
        self.ledger.granted_total()
    }

    pub fn system_frozen(&self) -> bool {
        self.ledger.is_frozen()
    }

    pub fn journal_count(&self) -> u64 {
        self.ledger.tables().header.get(7).copied().unwrap_or(0)
    }

    pub fn escrow_count(&self) -> u64 {
        self.ledger.tables().header.get(5).copied().unwrap_or(0)
    }

    pub fn receipt_count(&self) -> u64 {
        self.ledger.tables().header.get(6).copied().unwrap_or(0)
    }

    pub fn is_wallet(&self, id: u64) -> bool {
        self.wallet_ids.contains(&id)
    }

    /// One of the wallets of this kind.
    pub fn wallet(&self, kind: impl Fn(&WalletRow<'_>) -> bool, pick: u64) -> Option<u64> {
        let rows = self.ledger.wallets().filter(kind);
        let ids: Vec<u64> = rows.map(|row| row.id()).collect();
        around(&ids, pick)
    }

    /// One that is not closed, if there is one.
    pub fn any_wallet(&self, pick: u64) -> Option<u64> {
        self.wallet(|row| !row.is_closed(), pick)
            .or_else(|| around(&self.wallet_ids, pick))
    }

    /// One that can pay something, if there is one.
    pub fn payer(&self, pick: u64) -> Option<u64> {
        let can_pay = |row: &WalletRow<'_>| {
            let limits = [row.balance(), row.per_transaction_cap(), row.daily_cap()];
            !row.is_closed() && !row.is_frozen() && !limits.contains(&0)
        };
        self.wallet(can_pay, pick).or_else(|| self.any_wallet(pick))
    }

    pub fn is_closed(&self, id: u64) -> bool {
        self.ledger
            .wallets()
            .any(|wallet| wallet.id() == id && wallet.is_closed())
    }

    /// The parties that open escrows are to.
    pub fn recipients(&self, now: u64) -> Recipients {
        Recipients::of(&self.ledger, now)
    }

    /// Balance, cap per transaction, daily cap.
    pub fn means(&self, id: u64) -> Option<(u64, u64, u64)> {
        let wallet = self.ledger.wallets().find(|wallet| wallet.id() == id)?;
        Some((
            wallet.balance(),
            wallet.per_transaction_cap(),
            wallet.daily_cap(),
        ))
    }

    pub fn wallet_frozen(&self, id: u64) -> bool {
        self.ledger
            .wallets()
            .any(|wallet| wallet.id() == id && wallet.is_frozen())
    }

    /// What counts towards the signer's daily cap: the transfers and opens of the last day, whatever
    /// has become of the escrows.
    pub fn counted(&self, signer: u64, now: u64) -> u64 {
        self.ledger
            .journal()
            .filter(|row| row.signer() == signer && matches!(row.operation_word(), 2 | 3))
            .filter(|row| row.settled_at().saturating_add(DAY_MS) >= now)
            .fold(0, |sum, row| row.amount().saturating_add(sum))
    }

    /// When one of the signer's opens settled, of those that count or have just ceased to: for the
    /// others the end of their day has passed.
    pub fn hold(&self, signer: u64, pick: u64) -> Option<u64> {
        let moments: Vec<u64> = self
            .ledger
            .journal()
            .filter(|row| row.signer() == signer && row.operation_word() == 3)
            .map(|row| seen(row.settled_at()))
            .filter(|moment| moment + DAY_MS + 1 >= self.clock())
            .collect();
        around(&moments, pick)
    }

    pub fn escrow(&self, open: bool, pick: u64) -> Option<EscrowSeen> {
        self.escrow_of(|row| !open || row.state() == Some(EscrowState::Open), pick)
    }

    /// One of the open escrows that are not stale.
    pub fn escrow_in_time(&self, now: u64, pick: u64) -> Option<EscrowSeen> {
        let kind =
            |row: &EscrowRow<'_>| row.state() == Some(EscrowState::Open) && !row.is_stale(now);
        self.escrow_of(kind, pick)
    }

    /// One of the escrows of this kind.
    pub fn escrow_of(
        &self,
        kind: impl Fn(&EscrowRow<'_>) -> bool,
        pick: u64,
    ) -> Option<EscrowSeen> {
        let rows: Vec<EscrowSeen> = (1..)
            .zip(self.ledger.escrows())
            .filter(|(_, row)| kind(row))
            .map(|(number, row)| EscrowSeen {
                number,
                from: row.from(),
                to: row.to(),
                deadline: seen(row.deadline()),
            })
            .collect();
        around(&rows, pick)
    }

    /// The numbers of the escrows with a closed wallet that are open and not stale.
    pub fn escrows_of_closed(&self, now: u64) -> BTreeSet<u64> {
        let rows = (1..).zip(self.ledger.escrows());
        let open = rows.filter(|(_, row)| {
            row.state() == Some(EscrowState::Open)
                && !row.is_stale(now)
                && [row.from(), row.to()].iter().any(|&id| self.is_closed(id))
        });
        open.map(|(number, _)| number).collect()
    }

    /// One of the receipts of this kind.
    pub fn receipt(&self, kind: impl Fn(&ReceiptSeen) -> bool, pick: u64) -> Option<ReceiptSeen> {
        let rows: Vec<ReceiptSeen> = (1..)
            .zip(self.ledger.receipts())
            .map(|(number, row)| ReceiptSeen {
                number,
                requester: row.requester(),
                link: row.link(),
                deadline: seen(row.acceptance_deadline()),
                is_pending: row.state() == Some(ReceiptState::Pending),
            })
            .filter(kind)
            .collect();
        around(&rows, pick)
    }

    /// One of the written rows; counted from 0, around.
    pub fn entry(&self, pick: u64) -> Option<EntrySeen> {
        let rows: Vec<EntrySeen> = self
            .ledger
            .journal()
            .map(|row| EntrySeen {
                signer: row.signer(),
                nonce: row.nonce(),
                settled_at: seen(row.settled_at()),
            })
            .collect();
        around(&rows, pick)
    }

    /// What the first unwritten journal row happens to hold, or the last; none if its signer is 0
    /// and so nobody.
    pub fn unwritten(&self, first: bool) -> Option<EntrySeen> {
        let written = usize::try_from(self.journal_count()).ok()?;
        let mut rows = self.ledger.tables().journal.chunks_exact(8).skip(written);
        let row = if first { rows.next() } else { rows.last() };
        let entry = row.map(|row| EntrySeen {
            signer: row[0],
            nonce: row[1],
            settled_at: seen(row[5]),
        });
        entry.filter(|entry| entry.signer != 0)
    }

    /// The rows that a sweep could close.
    pub fn due(&self, now: u64) -> u64 {
        let receipts = self
            .ledger
            .receipts()
            .filter(|row| row.state() == Some(ReceiptState::Pending))
            .filter(|row| row.acceptance_deadline() < now);
        let escrows = self
            .ledger
            .escrows()
            .filter(|row| row.state() == Some(EscrowState::Open) && row.is_stale(now));
        (receipts.count() + escrows.count()) as u64
    }
}
