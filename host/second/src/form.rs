//! Request 7/13 of the change requests, "One reply to a claim": the form of a
//! record before it and since.

use crate::record::{Operation, ACCEPT};

/// The operation byte of a reply to a claim: "Operations 7 and 8 become one:
/// operation 7".
pub const REPLY: u8 = 7;

/// In which form a record is read. "all other rules being today's" in both.
#[derive(Clone, Copy, Debug, PartialEq, Eq)]
pub enum Form {
    /// "the old form", as it was right before request 7/13: "7 accept: target
    /// (receipt)", "8 dispute: target (receipt), bit 3". It has operation 12 of
    /// request 6/13.
    Old,
    /// "operation 7 with bit 2 for accept, clear for dispute, and bit 3 as
    /// before. ... Operation 8 is malformed from now on".
    New,
}

/// All that the two forms differ in.
impl Form {
    /// The operation of an operation byte, in the new form also by bit 2 of the
    /// flags; none if the byte is no operation.
    pub(crate) fn operation(self, byte: u8, flags: u8) -> Option<Operation> {
        match (self, byte) {
            (Form::Old, 7) => Some(Operation::Accept),
            (Form::Old, 8) => Some(Operation::Dispute),
            (Form::New, REPLY) if flags & ACCEPT != 0 => Some(Operation::Accept),
            (Form::New, REPLY) => Some(Operation::Dispute),
            _ => Operation::numbered(byte),
        }
    }

    /// The flag bits, besides bit 0, of an accept. Bit 3 is in neither form one
    /// of them: "Accept requires bit 3 to be clear; otherwise the record is
    /// malformed."
    pub(crate) fn bits_of_accept(self) -> u8 {
        match self {
            Form::Old => 0,
            Form::New => ACCEPT,
        }
    }
}
