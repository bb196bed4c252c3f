//! Submissions of which one journal row decides whether their signer and nonce are used.
//!
//! A search that leaves out the newest row or the oldest, gives up at an old one, reads a row too
//! far or compares half of the pair answers such submissions otherwise and no other; so a run must
//! come to them. They are worked out here from the tables, by neither program.

use std::collections::BTreeSet;

use milebeacon::Operation;

use crate::reached::Reached;
use crate::record::word;
use crate::step::DAY_MS;
use crate::twin::World;

/// What a run must come to, each at least once, and how it is told. A row refuses if it alone of
/// the written ones has signer and nonce. A submission has passed check 11 if its answer is 0 or one
/// of a later check.
const WANTED: [&str; 24] = [
    "refused by the only row, room left",
    "refused by the newest row, room left",
    "refused by the oldest row, room left",
    "refused by a row between, room left",
    "refused by the only row, no row free",
    "refused by the newest row, no row free",
    "refused by the oldest row, no row free",
    "refused by a row between, no row free",
    "refused by a row of more than a minute before",
    "refused by a row of more than 24 hours before",
    "refused by a row settled after now",
    "refused by a row of another operation",
    "refused by a row of no operation that signs",
    "passed the only row, with the nonce of another signer",
    "passed the newest row, with the nonce of another signer",
    "passed the oldest row, with the nonce of another signer",
    "passed the only row, with another nonce of the signer",
    "passed the newest row, with another nonce of the signer",
    "passed the oldest row, with another nonce of the signer",
    "passed two rows, one with the signer and one with the nonce",
    "passed the first unwritten row, with signer and nonce",
    "passed the first row of an empty journal, with signer and nonce",
    "passed the last row of the table, unwritten, with signer and nonce",
    "sweep passed a row with signer 0 and nonce 0",
];

const MINUTE_MS: u64 = 60_000;
const SWEEP: u64 = 9;

/// Counts of the submissions that were decided so.
pub fn none() -> Reached {
    Reached::none("signers and nonces that one journal row decided", &WANTED)
}

/// What a submission with this answer came to, given the tables before it: nothing unless check 11
/// refused it or it passed, and one row would make a wrong search answer otherwise.
pub fn decided(before: &World, record: &[u8], answer: u64) -> Vec<String> {
    if (1..=10).contains(&answer) {
        return Vec::new();
    }
    let asked = Asked::new(before, record);
    match (answer, asked.operation) {
        (11, _) => asked.refused(),
        (_, SWEEP) => asked.swept(),
        _ => asked.passed(),
    }
}

/// A submission's signer and nonce, and the journal that they are looked for in.
struct Asked<'a> {
    operation: u64,
    now: u64,
    signer: u64,
    nonce: u64,
    /// The written rows, the oldest first.
    written: Vec<&'a [u64]>,
    unwritten: Vec<&'a [u64]>,
}

impl<'a> Asked<'a> {
    fn new(before: &'a World, record: &[u8]) -> Asked<'a> {
        let count = before.header.get(7).map_or(0, |&count| count as usize);
        let mut written: Vec<&[u64]> = before.journal.chunks_exact(8).collect();
        let unwritten = written.split_off(count.min(written.len()));
        let [now, signer, nonce] = [0, 1, 2].map(|place| word(record, place));
        Asked {
            operation: record.get(2).map_or(0, |&byte| u64::from(byte)),
            now,
            signer,
            nonce,
            written,
            unwritten,
        }
    }

    fn has_signer(&self, row: &[u64]) -> bool {
        row[0] == self.signer
    }

    fn has_nonce(&self, row: &[u64]) -> bool {
        row[1] == self.nonce
    }

    fn has_both(&self, row: &[u64]) -> bool {
        self.has_signer(row) && self.has_nonce(row)
    }

    /// Which of the written rows this is.
    fn name(&self, place: usize) -> &'static str {
        let last = self.written.len() - 1;
        match place {
            0 if last == 0 => "the only row",
            0 => "the oldest row",
            _ if place == last => "the newest row",
            _ => "a row between",
        }
    }

    fn refused(&self) -> Vec<String> {
        let rows = self.written.iter().enumerate();
        let both: Vec<_> = rows.filter(|(_, row)| self.has_both(row)).collect();
        let (place, row) = match both[..] {
            [one] => one,
            _ => return Vec::new(),
        };
        let room = if self.unwritten.is_empty() {
            "no row free"
        } else {
            "room left"
        };
        let after = |span: u64| row[5].saturating_add(span);
        let also = [
            (
                after(MINUTE_MS) < self.now,
                "a row of more than a minute before",
            ),
            (
                after(DAY_MS) < self.now,
                "a row of more than 24 hours before",
            ),
            (after(0) > self.now, "a row settled after now"),
            (row[2] != self.operation, "a row of another operation"),
            (!signs(row[2]), "a row of no operation that signs"),
        ];
        let mut all = vec![format!("refused by {}, {room}", self.name(place))];
        let also = also.into_iter().filter(|(holds, _)| *holds);
        all.extend(also.map(|(_, what)| format!("refused by {what}")));
        all
    }

    /// No written row has signer and nonce.
    fn passed(&self) -> Vec<String> {
        let mut all = Vec::new();
        let last = self.written.len().saturating_sub(1);
        for place in BTreeSet::from([0, last]) {
            let row = self.written.get(place).copied();
            if row.map_or(false, |row| self.has_nonce(row)) {
                all.push(format!(
                    "passed {}, with the nonce of another signer",
                    self.name(place)
                ));
            }
            if row.map_or(false, |row| self.has_signer(row)) {
                all.push(format!(
                    "passed {}, with another nonce of the signer",
                    self.name(place)
                ));
            }
        }
        let signer = self.written.iter().any(|row| self.has_signer(row));
        if signer && self.written.iter().any(|row| self.has_nonce(row)) {
            all.push("passed two rows, one with the signer and one with the nonce".to_owned());
        }
        let first = if self.written.is_empty() {
            "the first row of an empty journal"
        } else {
            "the first unwritten row"
        };
        let behind = [
            (self.unwritten.first(), first),
            (
                self.unwritten.iter().skip(1).last(),
                "the last row of the table, unwritten",
            ),
        ];
        for (row, name) in behind {
            if row.map_or(false, |row| self.has_both(row)) {
                all.push(format!("passed {name}, with signer and nonce"));
            }
        }
        all
    }

    /// A sweep has signer 0 and nonce 0, and is not asked for them.
    fn swept(&self) -> Vec<String> {
        let seen = self.written.iter().any(|row| row[..2] == [0, 0]);
        let way = "sweep passed a row with signer 0 and nonce 0".to_owned();
        Some(way).filter(|_| seen).into_iter().collect()
    }
}

/// Whether a record of this operation has a signer.
fn signs(operation: u64) -> bool {
    let operation = u8::try_from(operation)
        .ok()
        .and_then(Operation::from_number);
    operation.map_or(false, Operation::has_envelope)
}
