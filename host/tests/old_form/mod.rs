//! A recording of the old form, in which 7 was an accept and 8 a dispute. Its replies are written
//! byte by byte, and its answers are those that were given then.

// no test uses all of it
#![allow(dead_code)]

use milebeacon::{
    Claim, Envelope, EscrowNumber, Freezable, Record, Submission, ENTRY_BYTES, RECORD_BYTES,
};

pub const NOW: u64 = 1_700_000_000_000;
pub const HOUR: u64 = 3_600_000;
const LATE: u64 = NOW + HOUR + 1;

/// Where a record has its operation, and its flags behind it.
pub const OPERATION: usize = 2;

/// A reply of 7 to a receipt: mark, operation, flags, now, signer, nonce, issued, expires, target.
pub fn reply(operation: u8, flags: u8, now: u64, nonce: u64, receipt: u64) -> Record {
    let mut record = [0; RECORD_BYTES];
    record[..4].copy_from_slice(&[0xA7, 0x3C, operation, flags]);
    let words = [now, 7, nonce, now, now + 60_000, receipt];
    for (place, word) in record[4..].chunks_exact_mut(8).zip(words) {
        place.copy_from_slice(&word.to_le_bytes());
    }
    record
}

/// The same with one byte changed.
pub fn torn(mut record: Record, place: usize, byte: u8) -> Record {
    record[place] = byte;
    record
}

/// An entry: its record, the number and the word of its answer, and the operation and the flags that
/// the record has once it is converted.
pub struct Line {
    pub record: Record,
    pub answer: (u8, u64),
    pub becomes: (u8, u8),
}

/// An entry whose record stays as it is.
fn stays(submission: Submission, number: u8, word: u64) -> Line {
    let record = submission.to_record().expect("well formed");
    Line {
        record,
        answer: (number, word),
        becomes: (record[2], record[3]),
    }
}

/// An entry whose record was malformed: its operation is none.
fn malformed(record: Record) -> Line {
    Line {
        record,
        answer: (3, 0),
        becomes: (0, record[3]),
    }
}

/// An accept, which gets bit 2.
fn accept(flags: u8, now: u64, nonce: u64, receipt: u64, answer: (u8, u64)) -> Line {
    Line {
        record: reply(7, flags, now, nonce, receipt),
        answer,
        becomes: (7, flags | 4),
    }
}

/// A dispute, which becomes operation 7.
fn dispute(flags: u8, now: u64, nonce: u64, receipt: u64, answer: (u8, u64)) -> Line {
    Line {
        record: reply(8, flags, now, nonce, receipt),
        answer,
        becomes: (7, flags),
    }
}

/// 7 holds 100 for 8 in escrow 1, and 8 claims three times: receipt 1 for what is held, 2 and 3 for
/// nothing.
fn claims() -> Vec<Line> {
    let admin = |nonce| Envelope::new(NOW, 1, nonce).by_admin();
    let claim = |nonce, escrow| {
        let claim = Claim {
            requester: 7,
            until: NOW + HOUR,
            escrow,
            hash: [7; 32],
            auto_accept: nonce == 3,
        };
        Submission::claim(Envelope::new(NOW, 8, nonce), claim)
    };
    let open = Submission::open(Envelope::new(NOW, 7, 1), 8, 100, NOW + HOUR);
    vec![
        stays(Submission::grant(admin(1), 7, 500), 0, 0),
        stays(open, 0, 1),
        stays(open, 11, 0),
        stays(claim(1, Some(EscrowNumber(1))), 0, 1),
        stays(claim(2, None), 0, 2),
        stays(claim(3, None), 0, 3),
        stays(Submission::caps(admin(2), 7, 50, 60), 0, 0),
    ]
}

/// Replies that settle or are refused, each for another reason: 1 is accepted and 2 disputed.
fn replies() -> Vec<Line> {
    vec![
        accept(1, NOW, 10, 9, (32, 0)),
        accept(0, NOW, 10, 1, (6, 0)),
        accept(1, NOW, 10, 1, (0, 1)),
        accept(1, NOW, 10, 1, (11, 0)),
        accept(1, NOW, 11, 1, (34, 0)),
        dispute(1, NOW, 11, 2, (35, 0)),
        dispute(8, NOW, 11, 2, (6, 0)),
        dispute(0, NOW, 11, 2, (6, 0)),
        dispute(9, NOW, 11, 2, (0, 0)),
        dispute(9, NOW, 12, 1, (34, 0)),
    ]
}

/// Records that were malformed. Receipt 3 waits for a reply, and some of them would be one today.
fn not_well_formed() -> Vec<Line> {
    let accept = |flags| reply(7, flags, NOW, 13, 3);
    let dispute = |flags| reply(8, flags, NOW, 13, 3);
    let sweep = Submission::sweep(NOW, 10).to_record().expect("well formed");
    let records = vec![
        accept(5),  // today it accepts
        accept(9),  // today it disputes
        accept(8),  // and is not signed
        accept(3),  // by an admin
        accept(13), // both
        dispute(5),
        dispute(13),
        dispute(25),
        torn(accept(1), 0, 0xA8), // another mark
        torn(dispute(9), 52, 1),  // an amount
        torn(dispute(9), 12, 0),  // nobody signs
        torn(sweep, 3, 8),        // a reason
        torn(sweep, OPERATION, 0),
        torn(sweep, OPERATION, 13),
        torn(accept(1), OPERATION, 255),
        [0xEE; RECORD_BYTES],
    ];
    records.into_iter().map(malformed).collect()
}

/// What comes after: a late reply, a sweep that accepts receipt 3, and the closing of a wallet.
fn afterwards() -> Vec<Line> {
    let admin = |nonce| Envelope::new(LATE, 1, nonce).by_admin();
    let eight = Envelope::new(LATE, 8, 9);
    vec![
        accept(1, LATE, 13, 3, (41, 0)),
        dispute(1, LATE, 13, 3, (41, 0)),
        stays(Submission::sweep(LATE, 10), 0, 1),
        dispute(9, LATE, 13, 3, (34, 0)),
        stays(Submission::transfer(eight, 7, 100), 0, 0),
        stays(Submission::close(admin(3), 8), 0, 0),
        stays(Submission::freeze(admin(4), Freezable::System, true), 0, 0),
        accept(1, LATE, 14, 1, (5, 0)),
    ]
}

/// All of it.
pub fn lines() -> Vec<Line> {
    let mut lines = claims();
    lines.extend(replies());
    lines.extend(not_well_formed());
    lines.extend(afterwards());
    lines
}

/// The bytes of an entry.
pub fn entry(record: &Record, (number, word): (u8, u64)) -> [u8; ENTRY_BYTES] {
    let mut bytes = [0; ENTRY_BYTES];
    bytes[..RECORD_BYTES].copy_from_slice(record);
    bytes[RECORD_BYTES] = number;
    bytes[RECORD_BYTES + 1..].copy_from_slice(&word.to_le_bytes());
    bytes
}

/// The recording of the old form.
pub fn recording() -> Vec<u8> {
    let lines = lines();
    lines
        .iter()
        .flat_map(|line| entry(&line.record, line.answer))
        .collect()
}

/// The same once it is converted.
pub fn converted() -> Vec<u8> {
    let turned = |line: &Line| {
        let (operation, flags) = line.becomes;
        let record = torn(line.record, OPERATION, operation);
        entry(&torn(record, OPERATION + 1, flags), line.answer)
    };
    lines().iter().flat_map(turned).collect()
}
