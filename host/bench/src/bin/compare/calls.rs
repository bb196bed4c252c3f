//! The calls that are compared.

use milebeacon::{Envelope, Ledger, ReceiptNumber, Sizes, Submission, Tables};

use bench::fill::{filled, Ids, NOW};
use bench::stream::{hold_and_release, records, transfer};

/// A call, and the tables that it finds.
pub struct Call {
    /// Its name in the report.
    pub name: &'static str,
    pub start: Tables<Vec<u64>>,
    pub bytes: Vec<u8>,
    /// The same in the old form of replies, for an archive that knows no other.
    pub old_form: Vec<u8>,
    /// The number that it must answer.
    pub number: u64,
}

/// A submission of no bytes, which is refused right after the ledger was found sound, and one of
/// each operation, which settles. The largest tables are full but for a few rows.
pub fn on_full_tables(ids: Ids) -> Vec<Call> {
    let full = filled(Sizes::LARGEST, ids);
    let stream = records(&hold_and_release(Sizes::LARGEST, ids));
    let (open, release) = (stream[0], stream[1]);
    let mut held = full.clone();
    assert!(held.submit(&open).is_settled(), "there is room to hold");
    let call = |name, ledger: &Ledger, bytes: &[u8], number| Call {
        name,
        start: ledger.clone().into_tables(),
        bytes: bytes.to_vec(),
        old_form: bytes.to_vec(),
        number,
    };
    let accept = accept(&full);
    let old_accept = Submission {
        flags: Submission::SIGNED,
        ..accept
    };
    vec![
        call("is it sound", &full, &[], 3),
        call("transfer", &full, &records(&[transfer(ids)])[0], 0),
        call("open", &full, &open, 0),
        call("release", &held, &release, 0),
        Call {
            old_form: records(&[old_accept])[0].to_vec(),
            ..call("accept", &full, &records(&[accept])[0], 0)
        },
    ]
}

/// The first receipt is accepted, which releases its escrow.
fn accept(full: &Ledger) -> Submission {
    let receipt = full.receipts().next().expect("receipts are written");
    let requester = Envelope::new(NOW, receipt.requester(), 1);
    Submission::accept(requester, ReceiptNumber(1))
}
