//! Payments that a hold decided at the daily cap: a hold at the end of its 24 hours, or one that is
//! no longer open.
//!
//! A hold is a journal row of operation 3. A program that counts one a millisecond too long or too
//! short, or no longer after a refund, answers such payments otherwise and no other submission; so
//! a run must come to them. They are worked out here from the tables, by neither program.

use milebeacon::{EscrowState, JournalRow, Ledger};

use crate::reached::Reached;
use crate::record::word;
use crate::step::DAY_MS;
use crate::twin::World;

/// What a run must come to, each at least once, and how it is told.
const WANTED: [&str; 7] = [
    "transfer refused by a hold of 86,400,000 ms before",
    "open refused by a hold of 86,400,000 ms before",
    "transfer settled after a hold of 86,400,001 ms before",
    "open settled after a hold of 86,400,001 ms before",
    "payment refused by a hold now released",
    "payment refused by a hold now refunded",
    "payment refused by a hold now expired",
];

const ENDS: [EscrowState; 3] = [
    EscrowState::Released,
    EscrowState::Refunded,
    EscrowState::Expired,
];

/// Counts of the payments that were decided so.
pub fn none() -> Reached {
    Reached::none("payments that a hold decided at the daily cap", &WANTED)
}

/// What a submission with this answer came to, given the tables before it: nothing unless it is a
/// payment that settled or was refused for the daily cap, and would not have been if the hold had
/// counted otherwise.
pub fn decided(before: &World, record: &[u8], answer: u64) -> Vec<String> {
    let payment = match record.get(2) {
        Some(2) => "transfer",
        Some(3) => "open",
        _ => return Vec::new(),
    };
    match answer {
        0 => settled_after(payment, &Payment::new(before, record)),
        19 => refused_by(payment, &Payment::new(before, record)),
        _ => Vec::new(),
    }
}

fn settled_after(payment: &str, asked: &Payment<'_>) -> Vec<String> {
    let gone = asked.holds(|row| after(row, DAY_MS + 1) == asked.now);
    let mut reached = Vec::new();
    if asked.is_over(asked.counted() + gone) {
        reached.push(format!(
            "{payment} settled after a hold of 86,400,001 ms before"
        ));
    }
    reached
}

fn refused_by(payment: &str, asked: &Payment<'_>) -> Vec<String> {
    let counted = asked.counted();
    let mut reached = Vec::new();
    let last = asked.holds(|row| after(row, DAY_MS) == asked.now);
    if !asked.is_over(counted - last) {
        reached.push(format!(
            "{payment} refused by a hold of 86,400,000 ms before"
        ));
    }
    for end in ENDS {
        let ended = asked.holds(|row| asked.counts(row) && asked.state(row) == Some(end));
        if !asked.is_over(counted - ended) {
            reached.push(format!("payment refused by a hold now {end}"));
        }
    }
    reached
}

/// A transfer or an open, and the tables that it is made on.
struct Payment<'a> {
    ledger: Ledger<&'a [u64]>,
    now: u64,
    signer: u64,
    amount: u64,
    daily_cap: u64,
}

impl<'a> Payment<'a> {
    fn new(before: &'a World, record: &[u8]) -> Payment<'a> {
        let ledger = Ledger::over(before.as_ref());
        let [now, signer, amount] = [0, 1, 6].map(|place| word(record, place));
        let wallet = ledger.wallets().find(|wallet| wallet.id() == signer);
        let daily_cap = wallet.map_or(0, |wallet| wallet.daily_cap());
        Payment {
            ledger,
            now,
            signer,
            amount,
            daily_cap,
        }
    }

    /// Whether the payment is over the daily cap if the counted rows come to this.
    fn is_over(&self, counted: u128) -> bool {
        u128::from(self.amount) + counted > u128::from(self.daily_cap)
    }

    /// What the signer's rows of this kind come to.
    fn sum(&self, kind: impl Fn(&JournalRow<'_>) -> bool) -> u128 {
        let journal = self.ledger.journal();
        journal
            .filter(|row| row.signer() == self.signer && kind(row))
            .map(|row| u128::from(row.amount()))
            .sum()
    }

    /// What the signer's holds of this kind come to.
    fn holds(&self, kind: impl Fn(&JournalRow<'_>) -> bool) -> u128 {
        self.sum(|row| row.operation_word() == 3 && kind(row))
    }

    /// What the counted rows come to.
    fn counted(&self) -> u128 {
        self.sum(|row| matches!(row.operation_word(), 2 | 3) && self.counts(row))
    }

    fn counts(&self, row: &JournalRow<'_>) -> bool {
        after(row, DAY_MS) >= self.now
    }

    /// The state of the escrow that a hold opened; none if the row's word names another.
    fn state(&self, row: &JournalRow<'_>) -> Option<EscrowState> {
        let place = usize::try_from(row.answer_word().checked_sub(1)?).ok()?;
        let escrow = self.ledger.escrows().nth(place)?;
        let opened = escrow.from() == row.signer() && escrow.amount() == row.amount();
        escrow.state().filter(|_| opened)
    }
}

/// The moment so long after a row was settled.
fn after(row: &JournalRow<'_>, span: u64) -> u64 {
    row.settled_at().saturating_add(span)
}
