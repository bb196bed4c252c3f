//! What closed wallets still take part in.
//!
//! A closed wallet keeps its row, its party may sign what 43 does not name, and on a lent ledger its
//! escrows end as any other. A program that leaves it out of something answers such submissions
//! otherwise and no other; so a run must come to them. They are worked out here from the tables
//! before and after, by neither program.

use std::collections::BTreeSet;

use milebeacon::{Ledger, Operation, Reply};

use crate::left::{Left, Recipients};
use crate::reached::{holding, Reached};
use crate::record::word;
use crate::twin::{Began, World};

/// What a run must come to, each at least once, and how it is told.
const WANTED: [&str; 25] = [
    "wallet made beside a closed one",
    "payment answered 37 beside a closed wallet",
    "grant settled, signed by a closed wallet",
    "release settled, signed by a closed wallet",
    "refund settled, signed by a closed wallet",
    "accept settled, signed by a closed wallet",
    "dispute settled, signed by a closed wallet",
    "freeze settled, signed by a closed wallet",
    "caps settled, signed by a closed wallet",
    "close settled, signed by a closed wallet",
    "reply settled, signed by a closed wallet, on a ledger begun afresh",
    "release settled, its number a closed wallet's id",
    "refund settled, its number a closed wallet's id",
    "accept settled, its number a closed wallet's id",
    "dispute settled, its number a closed wallet's id",
    "release: an escrow to a closed wallet was released",
    "release: an escrow from a closed wallet was released",
    "refund: an escrow to a closed wallet was refunded",
    "refund: an escrow from a closed wallet was refunded",
    "accept: an escrow to a closed wallet was released",
    "accept: an escrow from a closed wallet was released",
    "sweep: an escrow to a closed wallet was released",
    "sweep: an escrow from a closed wallet was released",
    "sweep: an escrow to a closed wallet was expired",
    "sweep: an escrow from a closed wallet was expired",
];

/// What no submission may come to. A wallet is closed for good; and on a ledger begun afresh it is
/// closed only when nothing is left in it, and 43 keeps what could come from it.
pub const NEVER: [&str; 2] = [
    "closed wallet opened again",
    "something in a closed wallet, on a ledger begun afresh",
];

/// Counts of the submissions that came to this.
pub fn none() -> Reached {
    Reached::none("what closed wallets take part in", &WANTED)
}

/// What a submission with this answer came to, given the tables before and after it and how they
/// began.
pub fn decided(
    before: &World,
    after: &World,
    record: &[u8],
    answer: u64,
    began: Began,
) -> Vec<String> {
    let operation = record.get(2).and_then(|&byte| Operation::from_number(byte));
    let operation = match operation {
        Some(operation) if matches!(answer, 0 | 37) => operation,
        _ => return Vec::new(),
    };
    let ledger = Ledger::over(before.as_ref());
    let closed = ledger.wallets().filter(|row| row.is_closed());
    let done = Done {
        operation,
        record,
        ledger: &ledger,
        closed: closed.map(|row| row.id()).collect(),
        began,
    };
    match answer {
        0 => done.settled(&Ledger::over(after.as_ref())),
        _ if done.closed.is_empty() => Vec::new(),
        _ => vec!["payment answered 37 beside a closed wallet".to_owned()],
    }
}

/// A submission, the ledger before it, and the closed wallets' ids.
struct Done<'a> {
    operation: Operation,
    record: &'a [u8],
    ledger: &'a Ledger<&'a [u64]>,
    closed: BTreeSet<u64>,
    began: Began,
}

impl Done<'_> {
    /// How the operation is told: a reply by what it replies.
    fn name(&self) -> &'static str {
        match self.operation {
            Operation::Reply => Reply::from_flags(self.record[3]).name(),
            operation => operation.name(),
        }
    }

    fn settled(&self, after: &Ledger<&[u64]>) -> Vec<String> {
        let name = self.name();
        let mut all = Vec::new();
        if self.closed.contains(&word(self.record, 1)) {
            all.push(format!("{name} settled, signed by a closed wallet"));
            if self.operation == Operation::Reply {
                all.push(format!(
                    "reply settled, signed by a closed wallet, on {}",
                    self.began
                ));
            }
        }
        let by_number = matches!(self.operation.number(), 4 | 5 | 7);
        if by_number && self.closed.contains(&word(self.record, 5)) {
            all.push(format!("{name} settled, its number a closed wallet's id"));
        }
        let made = after.wallets().count() > self.ledger.wallets().count();
        if made && !self.closed.is_empty() {
            all.push("wallet made beside a closed one".to_owned());
        }
        all.extend(self.ended(after));
        all.extend(self.never(after));
        all
    }

    /// The escrows of closed wallets that have ended.
    fn ended(&self, after: &Ledger<&[u64]>) -> Vec<String> {
        let mut all = BTreeSet::new();
        for (was, is) in self.ledger.escrows().zip(after.escrows()) {
            if let Some(state) = is.state().filter(|_| was.state() != is.state()) {
                for (party, id) in [("to", is.to()), ("from", is.from())] {
                    if self.closed.contains(&id) {
                        let name = self.name();
                        all.insert(format!(
                            "{name}: an escrow {party} a closed wallet was {state}"
                        ));
                    }
                }
            }
        }
        all.into_iter().collect()
    }

    /// What must not be.
    fn never(&self, after: &Ledger<&[u64]>) -> Vec<String> {
        let rows = self.ledger.wallets().zip(after.wallets());
        let mut opened = rows.filter(|(was, is)| was.is_closed() && !is.is_closed());
        let recipients = Recipients::of(after, word(self.record, 0));
        let mut closed = after.wallets().filter(|row| row.is_closed());
        let left = closed.any(|row| recipients.left(&row) != Left::NOTHING);
        let [again, something] = NEVER;
        holding([
            (opened.next().is_some(), again),
            (left && self.began == Began::Afresh, something),
        ])
        .collect()
    }
}
