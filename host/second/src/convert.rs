//! Request 7/13 of the change requests, "One reply to a claim": the converter.

use crate::form::{Form, REPLY};
use crate::record::{parse, Operation, ACCEPT, FLAGS_BYTE, OPERATION_BYTE, RECORD_BYTES};
use crate::replay::ENTRY_BYTES;

/// "A record malformed by the old form gets operation 0".
const NO_OPERATION: u8 = 0;

/// "Old recordings are turned into the new form in place by a converter. A
/// record malformed by the old form gets operation 0; a cut last entry stays.
/// The result must replay with the same answers and words as the old recording
/// had under the old form, all other rules being today's."
///
/// Once and no more: a recording doesn't say in which form it is, and a reply
/// in the new form is by the old one another, or malformed.
pub fn convert(recording: &mut [u8]) {
    // What is left over after the whole entries is the cut one.
    for entry in recording.chunks_exact_mut(ENTRY_BYTES) {
        convert_record(&mut entry[..RECORD_BYTES]);
    }
}

/// At most one byte changes, and what was recorded after the record stays.
fn convert_record(record: &mut [u8]) {
    match parse(Form::Old, record) {
        None => record[OPERATION_BYTE] = NO_OPERATION,
        // "operation 7 with bit 2 for accept"
        Some((Operation::Accept, _)) => record[FLAGS_BYTE] |= ACCEPT,
        // "clear for dispute, and bit 3 as before"
        Some((Operation::Dispute, _)) => record[OPERATION_BYTE] = REPLY,
        Some(_) => {}
    }
}
