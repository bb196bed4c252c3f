//! Request 3/13 of the change requests, "Month's report in exact numbers".

use crate::form::Form;
use crate::record::{parse, Operation, FLAGS_BYTE, OPERATION_BYTE, RECORD_BYTES};
use crate::replay::ENTRY_BYTES;
use crate::rows::EscrowState;
use crate::status::ANSWERS;
use crate::tables::{decode, fresh, lengths_right, Tables};

/// "one row for every operation and a row 0": operations 1 to 11, and 12 since
/// request 6/13. "Later operations and answers widen the grid", and nothing
/// makes it narrower: row 8 stays, though since request 7/13 no entry raises it.
pub const GRID_ROWS: usize = 13;

/// "one column per answer": answers 0 to 40, 41 since request 5/13, 42 and 43
/// since request 6/13.
pub const GRID_COLUMNS: usize = ANSWERS;

/// "a grid of counts by operation and answer": `grid[operation][answer]`.
pub type Grid = [[u64; GRID_COLUMNS]; GRID_ROWS];

/// What a report may name: "credits granted, transferred, released, refunded
/// and expired", and one of "the grid's cells".
#[derive(Clone, Copy, Debug, PartialEq, Eq)]
pub enum Figure {
    Granted,
    Transferred,
    Released,
    Refunded,
    Expired,
    /// The cell's row, 0 for operation bytes that are no operation, and its
    /// column.
    Cell {
        operation: usize,
        answer: usize,
    },
}

/// A report so far, "over any number of recordings". The default is that over
/// none.
#[derive(Clone, Debug, PartialEq, Eq)]
pub struct Report {
    pub grid: Grid,
    pub granted: u64,
    pub transferred: u64,
    pub released: u64,
    pub refunded: u64,
    pub expired: u64,
    /// "If a figure would pass 2^64 − 1, the report names it": a report that
    /// names one has stopped.
    pub named: Option<Figure>,
}

impl Default for Report {
    fn default() -> Report {
        Report {
            grid: [[0; GRID_COLUMNS]; GRID_ROWS],
            granted: 0,
            transferred: 0,
            released: 0,
            refunded: 0,
            expired: 0,
            named: None,
        }
    }
}

/// What adding one recording comes to.
#[derive(Clone, Copy, Debug, PartialEq, Eq)]
pub enum Added {
    /// "Tables of a wrong length are answer 1."
    WrongLength,
    /// The report had named a figure before and has stopped.
    AlreadyStopped,
    /// Every whole entry is counted: how many there were, and whether one cut
    /// short came after them.
    Counted { entries: u64, cut_short: bool },
    /// "the report names it ... and stops before that entry": the entry,
    /// counted from 1. Those before it are counted.
    Stopped { entry: u64, named: Figure },
}

/// Five tables of its own, with the words of lent ones.
struct Copied {
    header: Vec<u64>,
    wallets: Vec<u64>,
    escrows: Vec<u64>,
    receipts: Vec<u64>,
    journal: Vec<u64>,
}

impl Copied {
    fn of(tables: &Tables<'_>) -> Copied {
        Copied {
            header: tables.header.to_vec(),
            wallets: tables.wallets.to_vec(),
            escrows: tables.escrows.to_vec(),
            receipts: tables.receipts.to_vec(),
            journal: tables.journal.to_vec(),
        }
    }

    fn tables(&mut self) -> Tables<'_> {
        Tables {
            header: &mut self.header,
            wallets: &mut self.wallets,
            escrows: &mut self.escrows,
            receipts: &mut self.receipts,
            journal: &mut self.journal,
        }
    }

    fn put_into(&self, tables: &mut Tables<'_>) {
        tables.header.copy_from_slice(&self.header);
        tables.wallets.copy_from_slice(&self.wallets);
        tables.escrows.copy_from_slice(&self.escrows);
        tables.receipts.copy_from_slice(&self.receipts);
        tables.journal.copy_from_slice(&self.journal);
    }
}

/// "one row for every operation and a row 0 for records whose operation byte
/// is none of them": the byte as it stands, also in a malformed record. Of
/// request 7/13: "Operation 8 is ... counted in the grid's row 0."
fn grid_row(record: &[u8]) -> usize {
    let byte = record[OPERATION_BYTE];
    match Form::New.operation(byte, record[FLAGS_BYTE]) {
        Some(_) => usize::from(byte),
        None => 0,
    }
}

/// The credits of the escrows that were open in the one ledger and have this
/// state in the other, which is one entry later.
fn ended(before: &Tables<'_>, after: &Tables<'_>, state: EscrowState) -> u64 {
    let (before, after) = match (decode(before), decode(after)) {
        (Some(before), Some(after)) => (before.escrows.rows, after.escrows.rows),
        _ => return 0,
    };
    before
        .iter()
        .zip(&after)
        .filter(|(was, is)| was.state == EscrowState::Open && is.state == state)
        .map(|(_, escrow)| escrow.amount)
        .sum()
}

/// The report over one entry alone, from what was before it, what is after it
/// and "the core's own answer".
fn over_one(before: &Tables<'_>, after: &Tables<'_>, record: &[u8], answer: u64) -> Report {
    let mut one = Report::default();
    one.grid[grid_row(record)][answer as usize] = 1;
    if answer == 0 {
        // "Grant raises balance and granted total. Transfer moves balance."
        match parse(Form::New, record) {
            Some((Operation::Grant, grant)) => one.granted = grant.amount,
            Some((Operation::Transfer, transfer)) => one.transferred = transfer.amount,
            _ => {}
        }
        // By a release, a refund, an accept or a sweep.
        one.released = ended(before, after, EscrowState::Released);
        one.refunded = ended(before, after, EscrowState::Refunded);
        one.expired = ended(before, after, EscrowState::Expired);
    }
    one
}

/// One figure with what an entry adds to it. "If a figure would pass 2^64 − 1,
/// the report names it".
fn plus(figure: u64, more: u64, name: Figure) -> Result<u64, Figure> {
    let sum = u128::from(figure) + u128::from(more);
    u64::try_from(sum).map_err(|_| name)
}

/// The report with one entry more, or the figure that would pass: "of several
/// the first in this order, the grid's cells last".
fn with_one_more(report: &Report, one: &Report) -> Result<Report, Figure> {
    let mut sum = report.clone();
    sum.granted = plus(report.granted, one.granted, Figure::Granted)?;
    sum.transferred = plus(report.transferred, one.transferred, Figure::Transferred)?;
    sum.released = plus(report.released, one.released, Figure::Released)?;
    sum.refunded = plus(report.refunded, one.refunded, Figure::Refunded)?;
    sum.expired = plus(report.expired, one.expired, Figure::Expired)?;
    for (operation, row) in sum.grid.iter_mut().enumerate() {
        for (answer, cell) in row.iter_mut().enumerate() {
            let name = Figure::Cell { operation, answer };
            *cell = plus(*cell, one.grid[operation][answer], name)?;
        }
    }
    Ok(sum)
}

/// Adds one recording to a report. "Each recording is replayed on a fresh
/// ledger, and what is counted is the core's own answer; entries cut short are
/// not counted. ... If a figure would pass 2^64 − 1, the report names it (of
/// several the first in this order, the grid's cells last) and stops before
/// that entry." Of request 1/13: "Here and later, tables replayed on are left
/// as after the last entry replayed. Tables of a wrong length are answer 1."
pub fn add_recording(report: &mut Report, tables: &mut Tables<'_>, recording: &[u8]) -> Added {
    if !lengths_right(tables) {
        return Added::WrongLength;
    }
    if report.named.is_some() {
        return Added::AlreadyStopped;
    }
    fresh(tables);
    let entries = recording.chunks_exact(ENTRY_BYTES);
    let cut_short = !entries.remainder().is_empty();
    let mut counted = 0;
    for bytes in entries {
        // Whatever answer was recorded after it is not looked at.
        let record = &bytes[..RECORD_BYTES];
        let mut copied = Copied::of(tables);
        let (answer, _) = crate::submit(&mut copied.tables(), record);
        let one = over_one(tables, &copied.tables(), record, answer);
        match with_one_more(report, &one) {
            Ok(sum) => *report = sum,
            Err(named) => {
                report.named = Some(named);
                let entry = counted + 1;
                return Added::Stopped { entry, named };
            }
        }
        copied.put_into(tables);
        counted += 1;
    }
    Added::Counted {
        entries: counted,
        cut_short,
    }
}
