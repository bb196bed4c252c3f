//! The stream of submissions that everything is measured by: hold, then release, again and again;
//! and a transfer, which is measured by itself.

use milebeacon::{Envelope, EscrowNumber, Record, Sizes, Submission};

use crate::fill::{id, Ids, NOW, ROOM};

/// Opens an escrow and releases it, in turns, for as long as there is room in the tables.
pub fn hold_and_release(sizes: Sizes, ids: Ids) -> Vec<Submission> {
    let first = (sizes.escrows - ROOM) as u64;
    let mut stream = Vec::new();
    for pair in 0..ROOM as u64 / 2 {
        let (from, to) = (id(ids, 5 + pair as usize), id(ids, 3));
        let nonce = 1 + 2 * pair;
        let open = Submission::open(Envelope::new(NOW, from, nonce), to, 500, NOW + 3_600_000);
        let escrow = EscrowNumber(first + pair + 1);
        stream.push(open);
        stream.push(Submission::release(
            Envelope::new(NOW, from, nonce + 1),
            escrow,
        ));
    }
    stream
}

/// A transfer between two of the parties of the stream.
pub fn transfer(ids: Ids) -> Submission {
    Submission::transfer(Envelope::new(NOW, id(ids, 5), 1), id(ids, 3), 500)
}

/// The records of a stream.
///
/// They are written here and not by the core: on a processor that is not x86-64 the archive's
/// convention for large structs is not C's.
pub fn records(stream: &[Submission]) -> Vec<Record> {
    stream.iter().map(encode).collect()
}

fn encode(s: &Submission) -> Record {
    let mut record = [0; milebeacon::RECORD_BYTES];
    record[..4].copy_from_slice(&[0xA7, 0x3C, s.op, s.flags]);
    let envelope = [s.now, s.signer, s.nonce, s.issued, s.expires];
    let words = envelope
        .into_iter()
        .chain([s.target, s.amount, s.until, s.link])
        .chain(s.hash);
    for (bytes, word) in record[4..].chunks_exact_mut(8).zip(words) {
        bytes.copy_from_slice(&word.to_le_bytes());
    }
    record
}
