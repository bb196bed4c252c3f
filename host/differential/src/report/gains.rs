//! What each entry of a recording adds to a report, worked out from the tables before and after it:
//! the core submits the entry, but no program's report is asked.

use milebeacon::{ffi, Entries, EscrowState, Ledger, ReceiptState, Reply};

use crate::record::word;
use crate::tally::OPERATIONS;
use crate::twin::World;

/// The five sums and the cell, in the order in which they are named.
pub const FIGURES: [&str; 6] = [
    "granted",
    "transferred",
    "released",
    "refunded",
    "expired",
    "cell",
];

/// The place of the credits granted among them.
pub const GRANTED: usize = 0;
/// The place of the credits transferred.
pub const TRANSFERRED: usize = 1;
/// The place of the credits released.
pub const RELEASED: usize = 2;
/// The place of the credits refunded.
pub const REFUNDED: usize = 3;
/// The place of the credits of escrows that expired.
pub const EXPIRED: usize = 4;
/// The place of the cell.
pub const CELL: usize = 5;

const MALFORMED: usize = 3;
const NO_REASON: usize = 35;
const ACCEPTANCE_CLOSED: usize = 41;
const NOT_EMPTY: usize = 42;
const WALLET_CLOSED: usize = 43;
const REPLY: usize = 7;
/// The row of what was an operation and is none any more.
pub const NO_LONGER: usize = 8;
const SWEEP: usize = 9;
const CLOSE: usize = 12;

/// What one entry adds.
#[derive(Clone, Debug, PartialEq, Eq)]
pub struct Gain {
    /// The row and the column that it is counted in.
    pub cell: (usize, usize),
    /// What it adds to the five sums.
    pub credits: [u64; 5],
    /// What is told of it at the end of a run.
    pub ways: Vec<&'static str>,
}

impl Gain {
    /// What it adds to a figure; of the cells, to this one.
    pub fn of(&self, figure: usize, cell: (usize, usize)) -> u64 {
        self.credits
            .get(figure)
            .copied()
            .unwrap_or_else(|| u64::from(self.cell == cell))
    }

    /// Whether it adds something to a figure: to some cell in any case.
    pub fn raises(&self, figure: usize) -> bool {
        self.of(figure, self.cell) != 0
    }
}

/// What the whole entries add on a fresh ledger of the lengths of these tables; none if one of them
/// is wrong.
pub fn gains(tables: &World, recording: &[u8]) -> Option<Vec<Gain>> {
    let mut world = tables.clone();
    if ffi::fresh(world.as_mut()) != 0 {
        return None;
    }
    let mut before = Seen::of(&world);
    let entries = Entries::new(recording).map(|entry| {
        let answer = ffi::submit(world.as_mut(), entry.record).number as usize;
        let row = match usize::from(entry.record[2]) {
            NO_LONGER => 0,
            operation @ 1..=OPERATIONS => operation,
            _ => 0,
        };
        let mut ways = told(row, answer, entry.record);
        if usize::from(entry.recorded.number) != answer {
            ways.push("another answer than the recorded one");
        }
        let mut credits = [0; 5];
        if answer == 0 {
            let after = Seen::of(&world);
            credits = before.credits(&after, row, entry.record);
            ways.extend(before.ways(&after, row));
            before = after;
        }
        Gain {
            cell: (row, answer),
            credits,
            ways,
        }
    });
    Some(entries.collect())
}

/// What is told of an entry by its cell and its record alone.
fn told(row: usize, answer: usize, record: &[u8]) -> Vec<&'static str> {
    let (operation, flags) = (usize::from(record[2]), record[3]);
    match (row, answer, Reply::from_flags(flags)) {
        (0, MALFORMED, _) if operation == NO_LONGER => {
            vec!["malformed, in row 0", "operation 8, in row 0"]
        }
        (0, MALFORMED, _) => vec!["malformed, in row 0"],
        (CLOSE, MALFORMED, _) => vec!["a close that is malformed"],
        (REPLY, MALFORMED, _) if flags == 0b1101 => vec!["an accept with a reason, in row 7"],
        (_, MALFORMED, _) => vec!["malformed, in its operation's row"],
        (REPLY, 0, Reply::Accept) => vec!["an accept that settled"],
        (REPLY, 0, Reply::Dispute) => vec!["a dispute that settled"],
        (_, NO_REASON, _) => vec!["a dispute without a reason"],
        (_, ACCEPTANCE_CLOSED, Reply::Accept) => vec!["an accept after the deadline"],
        (_, ACCEPTANCE_CLOSED, Reply::Dispute) => vec!["a dispute after the deadline"],
        (CLOSE, 0, _) => vec!["a close that settled"],
        (CLOSE, WALLET_CLOSED, _) => vec!["a close of a closed wallet"],
        (_, WALLET_CLOSED, _) => vec!["a record that names a closed wallet"],
        (_, NOT_EMPTY, _) => vec!["a close of a wallet that is not empty"],
        _ => Vec::new(),
    }
}

/// What matters of a ledger.
struct Seen {
    granted: u64,
    escrows: Vec<(Option<EscrowState>, u64)>,
    receipts: Vec<(Option<ReceiptState>, u64)>,
}

impl Seen {
    fn of(world: &World) -> Seen {
        let ledger = Ledger::over(world.as_ref());
        let escrows = ledger.escrows().map(|row| (row.state(), row.amount()));
        let receipts = ledger.receipts().map(|row| (row.state(), row.link()));
        Seen {
            granted: ledger.granted_total(),
            escrows: escrows.collect(),
            receipts: receipts.collect(),
        }
    }

    /// The numbers of the escrows that were open and then have this state, and their amounts.
    fn ended<'a>(
        &'a self,
        after: &'a Seen,
        state: EscrowState,
    ) -> impl Iterator<Item = (u64, u64)> + 'a {
        let rows = (1..).zip(self.escrows.iter().zip(&after.escrows));
        rows.filter(move |(_, (was, is))| was.0 != is.0 && is.0 == Some(state))
            .map(|(number, (_, is))| (number, is.1))
    }

    fn credits(&self, after: &Seen, row: usize, record: &[u8]) -> [u64; 5] {
        let sum = |state| self.ended(after, state).map(|(_, amount)| amount).sum();
        [
            after.granted - self.granted,
            if row == 2 { word(record, 6) } else { 0 },
            sum(EscrowState::Released),
            sum(EscrowState::Refunded),
            sum(EscrowState::Expired),
        ]
    }

    fn ways(&self, after: &Seen, row: usize) -> Vec<&'static str> {
        let released: Vec<u64> = self
            .ended(after, EscrowState::Released)
            .map(|(number, _)| number)
            .collect();
        let expired = self.ended(after, EscrowState::Expired).count();
        let swept = row == SWEEP;
        let accepted = |escrow: u64| {
            let rows = self.receipts.iter().zip(&after.receipts);
            rows.filter(|(was, is)| {
                was.0 != is.0 && is.0 == Some(ReceiptState::Accepted) && is.1 == escrow
            })
            .count()
        };
        let twice = swept && released.iter().any(|&escrow| accepted(escrow) > 1);
        let ways = [
            (!released.is_empty() && row == 4, "released by a release"),
            (!released.is_empty() && row == 7, "released by an accept"),
            (!released.is_empty() && swept, "released by a sweep"),
            (released.len() > 1, "several released by one sweep"),
            (expired > 1, "several expired by one sweep"),
            (
                !released.is_empty() && expired > 0,
                "released and expired by one sweep",
            ),
            (twice, "two receipts of one sweep on one escrow"),
        ];
        let ways = ways.into_iter().filter(|(holds, _)| *holds);
        ways.map(|(_, way)| way).collect()
    }
}
