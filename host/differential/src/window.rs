//! Replies and sweeps that a receipt's acceptance deadline decided.
//!
//! A program that ends the window a millisecond too early or too late, goes by another deadline or
//! asks for it in another place of the table answers such submissions otherwise and no other; so a
//! run must come to them. They are worked out here from the tables, by neither program.

use std::collections::BTreeSet;

use milebeacon::{EscrowRow, EscrowState, Ledger, ReceiptRow, ReceiptState, Reply};

use crate::reached::Reached;
use crate::record::word;
use crate::step::DAY_MS;
use crate::twin::{Began, World};

/// What a run must come to, each at least once, and how it is told. A reply is an accept or a
/// dispute. An escrow is stale if it is open and its deadline has passed.
const WANTED: [&str; 27] = [
    "accept settled at the deadline",
    "dispute settled at the deadline",
    "accept refused one millisecond after the deadline",
    "dispute refused one millisecond after the deadline",
    "accept refused two days or more after the deadline",
    "dispute refused two days or more after the deadline",
    "accept refused after the deadline, and not after its escrow's",
    "dispute refused after the deadline, and not after its escrow's",
    "accept of a closed receipt answered 34 within the window",
    "dispute of a closed receipt answered 34 within the window",
    "accept of a closed receipt answered 34 after the deadline",
    "dispute of a closed receipt answered 34 after the deadline",
    "dispute without a reason answered 35 at the deadline",
    "dispute without a reason answered 41 one millisecond after the deadline",
    "reply by another answered 33 at the deadline",
    "reply by another answered 33 one millisecond after the deadline",
    "reply on a full journal answered 40 at the deadline",
    "reply on a full journal answered 41 one millisecond after the deadline",
    "accept released its escrow at the deadline of both",
    "accept found its escrow closed, on a ledger begun afresh",
    "accept found its escrow closed, on a lent ledger",
    "accept found its escrow stale, on a lent ledger",
    "sweep left a receipt at its deadline",
    "sweep closed a receipt one millisecond after its deadline",
    "sweep's accept released its escrow",
    "sweep's accept found its escrow closed",
    "sweep's accept found its escrow stale",
];

/// What no submission may come to. A claim's deadline is not after its escrow's (31), and an accept
/// is not after the claim's (41).
pub const NEVER: &str = "accept found its escrow stale, on a ledger begun afresh";

const REASON: u8 = 0b1000;

/// Counts of the submissions that were decided so.
pub fn none() -> Reached {
    Reached::none("what the acceptance deadline decided", &WANTED)
}

/// What a submission with this answer came to, given the tables before it and how they began:
/// nothing unless it is a reply that came to the checks of its receipt, or a sweep that settled.
pub fn decided(before: &World, record: &[u8], answer: u64, began: Began) -> Vec<String> {
    let ledger = Ledger::over(before.as_ref());
    match (record.get(2), answer) {
        (Some(7), 0 | 33 | 34 | 35 | 40 | 41) => {}
        (Some(9), 0) => return swept(&ledger, word(record, 0), word(record, 6)),
        _ => return Vec::new(),
    }
    let receipt = row_of(ledger.receipts(), word(record, 5));
    receipt.map_or_else(Vec::new, |receipt| {
        let asked = Asked {
            reply: Reply::from_flags(record[3]),
            now: word(record, 0),
            has_reason: record[3] & REASON != 0,
            escrow: row_of(ledger.escrows(), receipt.link()),
            receipt,
            full: ledger.journal().count() == before.journal.len() / 8,
            began,
        };
        asked.decided(answer)
    })
}

/// The row with this number, which is counted from 1.
pub(crate) fn row_of<R>(mut rows: impl Iterator<Item = R>, number: u64) -> Option<R> {
    let place = usize::try_from(number.checked_sub(1)?).ok()?;
    rows.nth(place)
}

/// A reply to a receipt that is there, and what it finds.
struct Asked<'a> {
    reply: Reply,
    now: u64,
    has_reason: bool,
    receipt: ReceiptRow<'a>,
    escrow: Option<EscrowRow<'a>>,
    full: bool,
    began: Began,
}

/// Where a moment stands to a deadline.
#[derive(Clone, Copy, PartialEq, Eq)]
enum Moment {
    Before,
    At,
    JustAfter,
    After,
}

impl Moment {
    fn of(now: u64, deadline: u64) -> Moment {
        match now.checked_sub(deadline) {
            None => Moment::Before,
            Some(0) => Moment::At,
            Some(1) => Moment::JustAfter,
            Some(_) => Moment::After,
        }
    }
}

impl Asked<'_> {
    fn decided(&self, answer: u64) -> Vec<String> {
        let moment = Moment::of(self.now, self.receipt.acceptance_deadline());
        let pending = self.receipt.state() == Some(ReceiptState::Pending);
        let reply = self.reply;
        match (answer, moment) {
            (0, _) => self.settled(moment),
            (41, _) => self.late(moment),
            (33, Moment::At) if pending => told("reply by another answered 33 at the deadline"),
            (33, Moment::JustAfter) if pending => {
                told("reply by another answered 33 one millisecond after the deadline")
            }
            (34, Moment::Before | Moment::At) => told(format!(
                "{reply} of a closed receipt answered 34 within the window"
            )),
            (34, _) => told(format!(
                "{reply} of a closed receipt answered 34 after the deadline"
            )),
            (35, Moment::At) => told("dispute without a reason answered 35 at the deadline"),
            (40, Moment::At) => told("reply on a full journal answered 40 at the deadline"),
            _ => Vec::new(),
        }
    }

    fn settled(&self, moment: Moment) -> Vec<String> {
        let mut all = Vec::new();
        if moment == Moment::At {
            all.push(format!("{} settled at the deadline", self.reply));
        }
        if let Some(escrow) = self.escrow.filter(|_| self.reply == Reply::Accept) {
            let found = |state| format!("accept found its escrow {state}, on {}", self.began);
            if escrow.state() != Some(EscrowState::Open) {
                all.push(found("closed"));
            } else if escrow.is_stale(self.now) {
                all.push(found("stale"));
            } else if moment == Moment::At && escrow.deadline() == self.now {
                all.push("accept released its escrow at the deadline of both".to_owned());
            }
        }
        all
    }

    fn late(&self, moment: Moment) -> Vec<String> {
        let reply = self.reply;
        let just = moment == Moment::JustAfter;
        let days = self
            .receipt
            .acceptance_deadline()
            .saturating_add(2 * DAY_MS)
            <= self.now;
        let in_time = self.escrow.map_or(false, |row| row.deadline() >= self.now);
        let ways = [
            (
                just,
                format!("{reply} refused one millisecond after the deadline"),
            ),
            (
                days,
                format!("{reply} refused two days or more after the deadline"),
            ),
            (
                in_time,
                format!("{reply} refused after the deadline, and not after its escrow's"),
            ),
            (
                just && reply == Reply::Dispute && !self.has_reason,
                "dispute without a reason answered 41 one millisecond after the deadline"
                    .to_owned(),
            ),
            (
                just && self.full,
                "reply on a full journal answered 41 one millisecond after the deadline".to_owned(),
            ),
        ];
        let ways = ways.into_iter().filter(|(holds, _)| *holds);
        ways.map(|(_, way)| way).collect()
    }
}

fn told(way: impl Into<String>) -> Vec<String> {
    vec![way.into()]
}

/// A sweep that settled, with this limit: which of the pending receipts it closed, and what its
/// accepts found.
fn swept(ledger: &Ledger<&[u64]>, now: u64, limit: u64) -> Vec<String> {
    let pending = || {
        let rows = ledger.receipts();
        rows.filter(|row| row.state() == Some(ReceiptState::Pending))
    };
    let due = pending().filter(|row| row.acceptance_deadline() < now);
    let closed: Vec<ReceiptRow<'_>> = due.take(limit as usize).collect();
    let mut all = BTreeSet::new();
    let mut released = BTreeSet::new();
    for receipt in &closed {
        if Moment::of(now, receipt.acceptance_deadline()) == Moment::JustAfter {
            all.insert("sweep closed a receipt one millisecond after its deadline");
        }
        let escrow = row_of(ledger.escrows(), receipt.link());
        if let Some(escrow) = escrow.filter(|_| receipt.is_auto_accept()) {
            let is_open = escrow.state() == Some(EscrowState::Open);
            all.insert(if !is_open || released.contains(&receipt.link()) {
                "sweep's accept found its escrow closed"
            } else if escrow.is_stale(now) {
                "sweep's accept found its escrow stale"
            } else {
                released.insert(receipt.link());
                "sweep's accept released its escrow"
            });
        }
    }
    let has_more = (closed.len() as u64) < limit;
    if has_more && pending().any(|row| row.acceptance_deadline() == now) {
        all.insert("sweep left a receipt at its deadline");
    }
    all.into_iter().map(str::to_owned).collect()
}
