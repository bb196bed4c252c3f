//! The archive's entry points as they are, numbers in and numbers out, and the only `unsafe` code
//! of this crate. The functions here are safe; the rest of the crate gives names to the numbers.
//!
//! A slice crosses as two arguments, its pointer and then its number of elements; structs cross by
//! value. The declarations are the shapes that the archive exports. Each call is total: the
//! archive's contracts have no precondition, so any slices and any words may be passed.

#![allow(unsafe_code)]

use crate::answer::ANSWERS;
use crate::numbers::{EscrowNumber, ReceiptNumber};
use crate::operation::GRID_ROWS;
use crate::submission::Submission;
use crate::tables::Tables;

/// What `milebeacon_submit` answers.
#[repr(C)]
#[derive(Clone, Copy, Debug, PartialEq, Eq)]
pub struct Answer {
    /// 0 if settled, else the refusal's number.
    pub number: u64,
    /// The answer word; 0 for a refusal.
    pub word: u64,
}

/// What `milebeacon_read` answers.
#[repr(C)]
#[derive(Clone, Copy, Debug, PartialEq, Eq)]
pub struct Read {
    /// 0, or 3 for a malformed record.
    pub number: u64,
    /// The fields; all 0 for a malformed record.
    pub submission: Submission,
}

/// What `milebeacon_wallet_row` finds.
#[repr(C)]
#[derive(Clone, Copy, Debug, PartialEq, Eq)]
pub struct Standing {
    /// [`WALLET_MISSING`], [`WALLET_LIVE`] or [`WALLET_CLOSED`].
    pub state: u64,
    /// The number of the wallet's row, counted from 1; 0 if it is missing.
    pub number: u64,
}

/// No wallet has the id.
pub const WALLET_MISSING: u64 = 0;
/// One has, and it is not closed.
pub const WALLET_LIVE: u64 = 1;
/// One has, and it is closed.
pub const WALLET_CLOSED: u64 = 2;

/// What `milebeacon_replay` finds.
#[repr(C)]
#[derive(Clone, Copy, Debug, PartialEq, Eq)]
pub struct Verdict {
    /// 0, or 1 for tables of a wrong length.
    pub number: u64,
    /// [`ALL_AGREE`], [`CUT_SHORT`] or [`DISAGREES`]; 0 if nothing was replayed, as the number is 1.
    pub finding: u64,
    /// How many entries were replayed: of a disagreement the entry's own number, counted from 1.
    pub replayed: u64,
    /// What the recording says of the entry that disagrees, the number being a byte of it; else
    /// zeros.
    pub recorded: Answer,
    /// What the core answers to it; else zeros.
    pub answered: Answer,
}

/// Every entry has the answer and the word that the core gives.
pub const ALL_AGREE: u64 = 1;
/// The same of every whole entry; one is cut short at the end, and was not replayed.
pub const CUT_SHORT: u64 = 2;
/// The last entry replayed has another answer or word than the core gives.
pub const DISAGREES: u64 = 3;

/// What `milebeacon_report` tells.
#[repr(C)]
#[derive(Clone, Copy, Debug, PartialEq, Eq)]
pub struct Told {
    /// 0, or 1 for tables of a wrong length.
    pub number: u64,
    /// How many entries were counted.
    pub entries: u64,
}

/// A report's counts: rows by operation, row 0 for records of none, and in each a column for every
/// answer.
pub type Grid = [[u64; ANSWERS]; GRID_ROWS];
/// A report's credits: granted, transferred, released, refunded and expired.
pub type Figures = [u64; 5];
/// What a report has named: a figure, counted from 1, the grid's cell being the last, or 0 for none;
/// and the row and the column of the entry that it stopped before.
pub type Named = [u64; 3];

// Two bytes, six of padding, and thirteen words, as the archive has them; two words of a standing,
// seven of a verdict; the rows and columns of a grid, which the archive writes to.
const _: () = assert!(std::mem::size_of::<Submission>() == 112);
const _: () = assert!(std::mem::size_of::<Read>() == 120);
const _: () = assert!(std::mem::size_of::<Standing>() == 16);
const _: () = assert!(std::mem::size_of::<Verdict>() == 56);
const _: () = assert!(GRID_ROWS == 13 && ANSWERS == 44);

/// Declares entry points that are lent the five tables, which come before what else is named.
macro_rules! lent_tables {
    ($(fn $name:ident($($argument:ident: $kind:ty),*) -> $answer:ty;)*) => {
        extern "C" {
            $(
                fn $name(
                    header: *mut u64,
                    header_len: usize,
                    wallets: *mut u64,
                    wallets_len: usize,
                    escrows: *mut u64,
                    escrows_len: usize,
                    receipts: *mut u64,
                    receipts_len: usize,
                    journal: *mut u64,
                    journal_len: usize,
                    $($argument: $kind),*
                ) -> $answer;
            )*
        }
    };
}

/// Calls one of them with these tables, in the order of its declaration.
macro_rules! lend {
    ($lent:ident to $name:ident($($argument:expr),*)) => {
        $name(
            $lent.header.as_mut_ptr(),
            $lent.header.len(),
            $lent.wallets.as_mut_ptr(),
            $lent.wallets.len(),
            $lent.escrows.as_mut_ptr(),
            $lent.escrows.len(),
            $lent.receipts.as_mut_ptr(),
            $lent.receipts.len(),
            $lent.journal.as_mut_ptr(),
            $lent.journal.len(),
            $($argument),*
        )
    };
}

lent_tables! {
    fn milebeacon_submit(record: *const u8, record_len: usize) -> Answer;
    fn milebeacon_fresh() -> u64;
    fn milebeacon_replay(recording: *const u8, recording_len: usize) -> Verdict;
    fn milebeacon_report(
        recording: *const u8,
        recording_len: usize,
        grid: *mut Grid,
        figures: *mut Figures,
        named: *mut Named
    ) -> Told;
}

extern "C" {
    fn milebeacon_read(record: *const u8, record_len: usize) -> Read;
    fn milebeacon_write(submission: Submission, out: *mut u8, out_len: usize) -> u64;
    fn milebeacon_convert(recording: *mut u8, recording_len: usize);
    fn milebeacon_status(number: u64) -> u64;
    fn milebeacon_wallet_row(
        header: *const u64,
        header_len: usize,
        wallets: *const u64,
        wallets_len: usize,
        id: u64,
    ) -> Standing;
    fn milebeacon_escrow_place(
        header: *const u64,
        header_len: usize,
        escrows: *const u64,
        escrows_len: usize,
        number: EscrowNumber,
    ) -> usize;
    fn milebeacon_receipt_place(
        header: *const u64,
        header_len: usize,
        receipts: *const u64,
        receipts_len: usize,
        number: ReceiptNumber,
    ) -> usize;
}

/// Settles the record on the lent tables, or refuses it and changes nothing.
pub fn submit(lent: Tables<&mut [u64]>, record: &[u8]) -> Answer {
    // SAFETY: each pointer and count are those of a live slice. The five tables are borrowed
    // mutably, so none overlaps another or the record; the archive reads and writes within them
    // only, and keeps none of them.
    unsafe { lend!(lent to milebeacon_submit(record.as_ptr(), record.len())) }
}

/// Starts the lent tables afresh: 0, or 1 for a wrong length.
pub fn fresh(lent: Tables<&mut [u64]>) -> u64 {
    // SAFETY: as for `submit`; there is no record.
    unsafe { lend!(lent to milebeacon_fresh()) }
}

/// Starts the lent tables afresh, submits the whole entries of the recording one after the other and
/// stops at the first whose answer or word is another than the recorded one.
pub fn replay(lent: Tables<&mut [u64]>, recording: &[u8]) -> Verdict {
    // SAFETY: as for `submit`, with the recording, which is only read, in the record's place. Every
    // value of the returned struct is a number.
    unsafe { lend!(lent to milebeacon_replay(recording.as_ptr(), recording.len())) }
}

/// Adds a recording to a report: starts the lent tables afresh, submits the whole entries one after
/// the other and counts each by its answer, up to one with which a figure would pass 2^64 - 1. A
/// report that has named a figure stays as it is, and the tables too.
pub fn report(
    lent: Tables<&mut [u64]>,
    recording: &[u8],
    grid: &mut Grid,
    figures: &mut Figures,
    named: &mut Named,
) -> Told {
    // SAFETY: as for `replay`. The three arrays have the archive's lengths, and they are borrowed
    // mutably, so none overlaps anything else; the archive keeps none of them.
    unsafe {
        lend!(lent to milebeacon_report(
            recording.as_ptr(),
            recording.len(),
            grid,
            figures,
            named
        ))
    }
}

/// The fields of a record.
pub fn read(record: &[u8]) -> Read {
    // SAFETY: the pointer and count are those of a live slice, which is only read. Every value of
    // the returned struct is a number.
    unsafe { milebeacon_read(record.as_ptr(), record.len()) }
}

/// Writes the record of these fields: 0, or 3 and `out` stays.
pub fn write(submission: Submission, out: &mut [u8]) -> u64 {
    // SAFETY: the pointer and count are those of a live slice that is borrowed mutably; the archive
    // writes within it only.
    unsafe { milebeacon_write(submission, out.as_mut_ptr(), out.len()) }
}

/// Turns a recording of the old form of replies into today's, in place.
pub fn convert(recording: &mut [u8]) {
    // SAFETY: as for `write`.
    unsafe { milebeacon_convert(recording.as_mut_ptr(), recording.len()) }
}

/// The status of an answer's number.
pub fn status(number: u64) -> u64 {
    // SAFETY: a number in, a number out.
    unsafe { milebeacon_status(number) }
}

/// Whether the first wallet row with this id is missing, live or closed, and its number.
pub fn wallet_row(header: &[u64], wallets: &[u64], id: u64) -> Standing {
    // SAFETY: each pointer and count are those of a live slice, which is only read. Every value of
    // the returned struct is a number.
    unsafe {
        milebeacon_wallet_row(
            header.as_ptr(),
            header.len(),
            wallets.as_ptr(),
            wallets.len(),
            id,
        )
    }
}

/// Where the escrow's row starts in the table, in words, or the table's length if there is none.
pub fn escrow_place(header: &[u64], escrows: &[u64], number: EscrowNumber) -> usize {
    // SAFETY: each pointer and count are those of a live slice, which is only read.
    unsafe {
        milebeacon_escrow_place(
            header.as_ptr(),
            header.len(),
            escrows.as_ptr(),
            escrows.len(),
            number,
        )
    }
}

/// Where the receipt's row starts in the table, in words, or the table's length if there is none.
pub fn receipt_place(header: &[u64], receipts: &[u64], number: ReceiptNumber) -> usize {
    // SAFETY: each pointer and count are those of a live slice, which is only read.
    unsafe {
        milebeacon_receipt_place(
            header.as_ptr(),
            header.len(),
            receipts.as_ptr(),
            receipts.len(),
            number,
        )
    }
}
