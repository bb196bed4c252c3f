//! What each record of an old recording is, and what it becomes, by its faults in the old form.

use milebeacon::Operation;
use second::Form;

use crate::shape::{faults, Fault};

const ACCEPT: u8 = 7;
const DISPUTE: u8 = 8;
const CLOSE: u8 = 12;
/// The first number beyond the last operation's.
const NEXT: u8 = CLOSE + 1;
const SIGNED: u8 = 0b0001;
const BIT_2: u8 = 0b0100;
const BIT_3: u8 = 0b1000;

/// The operation and the flags that a record gets.
pub fn converted(record: &[u8]) -> (u8, u8) {
    let (operation, flags) = (record[2], record[3]);
    match (faults(Form::Old, record).is_empty(), operation) {
        (false, _) => (0, flags),
        (true, ACCEPT) => (ACCEPT, flags | BIT_2),
        (true, DISPUTE) => (ACCEPT, flags),
        (true, _) => (operation, flags),
    }
}

/// How a record of the old form is told; a malformed one by its only fault.
pub fn kind(record: &[u8]) -> String {
    let (operation, flags) = (record[2], record[3]);
    let of = match operation {
        ACCEPT => "7",
        DISPUTE => "8",
        _ => "another operation",
    };
    match faults(Form::Old, record)[..] {
        [] => well_formed(operation, flags),
        [Fault::Operation] => match operation {
            0 => "operation 0".to_owned(),
            NEXT if is_all_of_a_close(record) => "operation 13, all else a close".to_owned(),
            _ => "operation above 12".to_owned(),
        },
        [Fault::Flags] => format!("{of} with {}", wrong_bits(operation, flags)),
        [Fault::Mark] => format!("{of} with a wrong mark"),
        [Fault::Unused] => format!("{of} with a part that it does not use"),
        [Fault::Signer] => format!("{of} without a signer"),
        [Fault::Time] => format!("{of} with a time beyond the last"),
        [Fault::Window] => format!("{of} that expires before it is issued"),
        _ => "malformed in several ways".to_owned(),
    }
}

/// Whether only the number keeps it from being one of the last operation.
fn is_all_of_a_close(record: &[u8]) -> bool {
    let mut close = record.to_vec();
    close[2] = CLOSE;
    faults(Form::Old, &close).is_empty()
}

fn well_formed(operation: u8, flags: u8) -> String {
    let signed = if flags & SIGNED != 0 {
        "signed"
    } else {
        "unsigned"
    };
    match operation {
        ACCEPT => format!("accept, {signed}"),
        DISPUTE if flags & BIT_3 != 0 => format!("dispute with a reason, {signed}"),
        DISPUTE => format!("dispute without a reason, {signed}"),
        _ => Operation::from_number(operation)
            .map_or("no operation", Operation::name)
            .to_owned(),
    }
}

fn wrong_bits(operation: u8, flags: u8) -> &'static str {
    let others = flags & !(SIGNED | BIT_2 | BIT_3) != 0;
    match (operation, flags & BIT_2 != 0, flags & BIT_3 != 0) {
        (ACCEPT | DISPUTE, ..) if others => "a bit that no reply uses",
        (ACCEPT | DISPUTE, true, true) => "bits 2 and 3",
        (ACCEPT | DISPUTE, true, false) => "bit 2",
        (ACCEPT | DISPUTE, false, _) => "bit 3",
        _ => "a bit that it does not use",
    }
}

/// Each kind that a run must come to.
pub const KINDS: [&str; 43] = [
    "accept, signed",
    "accept, unsigned",
    "dispute with a reason, signed",
    "dispute with a reason, unsigned",
    "dispute without a reason, signed",
    "dispute without a reason, unsigned",
    "grant",
    "transfer",
    "open",
    "release",
    "refund",
    "claim",
    "sweep",
    "freeze",
    "caps",
    "close",
    "operation 0",
    "operation 13, all else a close",
    "operation above 12",
    "7 with bit 2",
    "7 with bit 3",
    "7 with bits 2 and 3",
    "7 with a bit that no reply uses",
    "8 with bit 2",
    "8 with bits 2 and 3",
    "8 with a bit that no reply uses",
    "another operation with a bit that it does not use",
    "7 with a wrong mark",
    "8 with a wrong mark",
    "another operation with a wrong mark",
    "7 with a part that it does not use",
    "8 with a part that it does not use",
    "another operation with a part that it does not use",
    "7 without a signer",
    "8 without a signer",
    "another operation without a signer",
    "7 with a time beyond the last",
    "8 with a time beyond the last",
    "another operation with a time beyond the last",
    "7 that expires before it is issued",
    "8 that expires before it is issued",
    "another operation that expires before it is issued",
    "malformed in several ways",
];
