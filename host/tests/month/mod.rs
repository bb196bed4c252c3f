//! Recordings for reports: what each entry comes to is said by hand.

// no test uses all of it
#![allow(dead_code)]

use milebeacon::{
    Cell, Claim, Envelope, EscrowNumber, Ledger, Operation, ReceiptNumber, Record, Refusal, Sizes,
    Submission, ENTRY_BYTES, RECORD_BYTES,
};

pub const NOW: u64 = 1_700_000_000_000;
pub const HOUR: u64 = 3_600_000;
/// The shortest time for acceptance.
pub const MINUTES: u64 = 300_000;
pub const SIZES: Sizes = Sizes {
    wallets: 4,
    escrows: 5,
    receipts: 2,
    journal: 20,
};

pub fn fresh() -> Ledger {
    Ledger::new(SIZES).expect("right sizes")
}

pub fn claim(escrow: u64, auto_accept: bool) -> Claim {
    Claim {
        requester: 7,
        until: NOW + MINUTES,
        escrow: Some(EscrowNumber(escrow)),
        hash: [3; 32],
        auto_accept,
    }
}

/// An entry for everything that moves credits, and some that are refused. Each line says what
/// becomes of it.
pub fn records() -> Vec<Record> {
    let seven = |nonce| Envelope::new(NOW, 7, nonce);
    let eight = |nonce| Envelope::new(NOW, 8, nonce);
    let grant = Submission::grant(Envelope::new(NOW, 1, 1).by_admin(), 7, 1_000);
    let submissions = [
        grant,                                           // granted 1,000
        Submission::transfer(seven(1), 8, 100),          // transferred 100
        Submission::open(seven(2), 8, 20, NOW + HOUR),   // escrow 1
        Submission::open(seven(3), 8, 30, NOW + HOUR),   // escrow 2
        Submission::open(seven(4), 8, 40, NOW + 1),      // escrow 3
        Submission::open(seven(5), 8, 50, NOW + HOUR),   // escrow 4
        Submission::open(seven(6), 8, 60, NOW + HOUR),   // escrow 5
        grant,                                           // refused: the nonce was seen
        Submission::transfer(seven(7), 8, 701),          // refused: there are 700
        Submission::release(seven(8), EscrowNumber(1)),  // released 20
        Submission::release(seven(9), EscrowNumber(1)),  // refused: it is closed
        Submission::refund(seven(10), EscrowNumber(2)),  // refunded 30
        Submission::claim(eight(1), claim(4, true)),     // receipt 1
        Submission::claim(eight(2), claim(5, false)),    // receipt 2
        Submission::accept(seven(11), ReceiptNumber(2)), // released 60
        Submission::open(seven(12), 8, 1, NOW + HOUR),   // refused: the table is full
        Submission::sweep(NOW + MINUTES + 1, 10),        // released 50, expired 40
        Submission::sweep(NOW + MINUTES, 10),            // refused: the clock goes back
    ];
    let records = submissions.iter().map(Submission::to_record);
    let mut records: Vec<Record> = records.map(|record| record.expect("well formed")).collect();
    let mut torn = records[1];
    torn[107] = 1; // a transfer has no hash
    records.push(torn);
    records.push([0xEE; RECORD_BYTES]);
    records
}

/// What the grid has of them, by hand.
pub fn counts() -> Vec<(Cell, u64)> {
    use Operation::{Claim, Grant, Open, Refund, Release, Reply, Sweep, Transfer};
    vec![
        (Cell::refused(None, Refusal::MalformedRecord), 1),
        (Cell::settled(Grant), 1),
        (Cell::refused(Grant, Refusal::NonceSeen), 1),
        (Cell::settled(Transfer), 1),
        (Cell::refused(Transfer, Refusal::MalformedRecord), 1),
        (Cell::refused(Transfer, Refusal::InsufficientBalance), 1),
        (Cell::settled(Open), 5),
        (Cell::refused(Open, Refusal::EscrowTableFull), 1),
        (Cell::settled(Release), 1),
        (Cell::refused(Release, Refusal::EscrowNotOpen), 1),
        (Cell::settled(Refund), 1),
        (Cell::settled(Claim), 2),
        (Cell::settled(Reply), 1),
        (Cell::settled(Sweep), 1),
        (Cell::refused(Sweep, Refusal::ClockBack), 1),
    ]
}

/// Granted, transferred, released, refunded, expired.
pub const CREDITS: [u64; 5] = [1_000, 100, 130, 30, 40];

/// The sweep that accepts a receipt and lets an escrow expire, counted from 1.
pub const SWEEP: u64 = 17;

/// A recording of these records. Its answers are anything, as nobody looks at them.
pub fn recording(records: &[Record]) -> Vec<u8> {
    let entries = records.iter().flat_map(|record| {
        let answer = [0xA5; ENTRY_BYTES - RECORD_BYTES];
        record.iter().copied().chain(answer)
    });
    entries.collect()
}

/// The ledger after the first of the records.
pub fn after(count: u64) -> Ledger {
    let mut ledger = fresh();
    for record in &records()[..count as usize] {
        let _ = ledger.submit(record);
    }
    ledger
}

/// A ledger that has seen something else, of which a report must leave no trace.
pub fn used() -> Ledger {
    let mut ledger = fresh();
    let other = Submission::grant(Envelope::new(NOW + HOUR, 2, 9).by_admin(), 77, 5);
    assert!(ledger.settle(&other).is_settled());
    ledger
}

/// The words that count: the header, and the rows written.
pub fn written(ledger: &Ledger) -> Vec<Vec<u64>> {
    let header = ledger.tables().header.to_vec();
    let rows = ledger.wallets().map(|row| row.words().to_vec());
    let rows = rows.chain(ledger.escrows().map(|row| row.words().to_vec()));
    let rows = rows.chain(ledger.receipts().map(|row| row.words().to_vec()));
    let rows = rows.chain(ledger.journal().map(|row| row.words().to_vec()));
    [header].into_iter().chain(rows).collect()
}
