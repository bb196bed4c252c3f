//! An independent second settlement core, written from the document
//! "Exact rules of the settlement core" and, of "Additional change requests",
//! what has been asked for since. Doc comments quote them.
//!
//! The lent tables are decoded into plain structs, the work is done on those,
//! and only after settling are they encoded back into the lent slices.

#![forbid(unsafe_code)]

mod convert;
mod form;
mod lookups;
mod record;
mod refusals;
mod replay;
mod report;
mod rows;
mod run;
mod settle;
mod sound;
mod status;
mod tables;
mod wallets;

pub use convert::convert;
pub use form::Form;
pub use lookups::{escrow_row, receipt_row, wallet_row};
pub use record::{read, read_in, write, write_in, Submission};
pub use replay::{entry, replay, replay_in, Found, ENTRY_BYTES};
pub use report::{add_recording, Added, Figure, Grid, Report, GRID_COLUMNS, GRID_ROWS};
pub use run::run;
pub use status::status;
pub use tables::{fresh, Tables};
pub use wallets::FoundWallet;

/// "Units are ... milliseconds"; times are "at most 2^48 − 1".
const LAST_TIME: u64 = (1 << 48) - 1;

/// "an amount of 1 to 10^15".
const MOST_AMOUNT: u64 = 1_000_000_000_000_000;

/// "the granted total, which is at most 10^18".
const MOST_GRANTED: u64 = 1_000_000_000_000_000_000;

/// "The answer is the lowest number whose condition holds; if none holds, 0.
/// An answer is a number and a word; a refusal's word is 0 and no lent word
/// or byte changes." Since request 5/13 it is not the lowest number but the
/// first: "Demand 2's order is now that of the table's rows".
pub fn submit(tables: &mut Tables<'_>, record: &[u8]) -> (u64, u64) {
    submit_in(Form::New, tables, record)
}

/// `submit` of a record in either form, "all other rules being today's".
pub fn submit_in(form: Form, tables: &mut Tables<'_>, record: &[u8]) -> (u64, u64) {
    // 1, bad_table: "a table's slice has a wrong length".
    if !tables::lengths_right(tables) {
        return (1, 0);
    }
    // 2, ledger_damaged: "not sound".
    let mut ledger = match sound::sound_ledger(tables) {
        Some(ledger) => ledger,
        None => return (2, 0),
    };
    // 3, malformed_record.
    let (operation, submission) = match record::parse(form, record) {
        Some(well_formed) => well_formed,
        None => return (3, 0),
    };
    // The rows from 4 on.
    if let Some(number) = refusals::refusal(&ledger, operation, &submission) {
        return (number, 0);
    }
    let word = settle::settle(&mut ledger, operation, &submission);
    tables::encode(&ledger, tables);
    (0, word)
}

/// "A ledger is sound if: ..."; never of a table with a wrong length.
pub fn is_sound(tables: &Tables<'_>) -> bool {
    tables::lengths_right(tables) && sound::sound_ledger(tables).is_some()
}
