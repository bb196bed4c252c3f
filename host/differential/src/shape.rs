//! What a record is in either form, worked out by neither program.

use milebeacon::{Reply, RECORD_BYTES};
use second::Form;

use crate::record::word;
use crate::step::LAST_TIME;

/// The flag bits of a reply.
const SIGNED: u8 = 0b0001;
const ACCEPT: u8 = 0b0100;
const REASON: u8 = 0b1000;

/// The places of a record's words, as bits: all up to the target, and those behind it.
const NOW: u16 = 1;
const TO_TARGET: u16 = 0b11_1111;
const AMOUNT: u16 = 1 << 6;
const UNTIL: u16 = 1 << 7;
const LINK: u16 = 1 << 8;
const HASH: u16 = 0b1111 << 9;

const SWEEP: u8 = 9;

/// A way to be malformed.
#[derive(Clone, Copy, Debug, PartialEq, Eq)]
pub enum Fault {
    /// Another length than 108.
    Length,
    /// Another mark than A7 3C.
    Mark,
    /// The operation is none.
    Operation,
    /// A flag bit that the operation does not use.
    Flags,
    /// A word that it does not use.
    Unused,
    /// No signer.
    Signer,
    /// A time beyond the last.
    Time,
    /// It expires before it is issued.
    Window,
}

/// The flag bits and the words that an operation uses; none if the number is no operation's.
fn uses(form: Form, operation: u8, flags: u8) -> Option<(u8, u16)> {
    let reply = |bits| (SIGNED | bits, TO_TARGET);
    Some(match (operation, form) {
        (1, _) => (0b0011, TO_TARGET | AMOUNT),
        (2, _) => (0b0001, TO_TARGET | AMOUNT),
        (3, _) => (0b0001, TO_TARGET | AMOUNT | UNTIL),
        (4 | 5 | 12, _) => (0b0011, TO_TARGET),
        (6, _) => (0b0101, TO_TARGET | UNTIL | LINK | HASH),
        (7, Form::Old) => reply(0),
        (8, Form::Old) => reply(REASON),
        (7, Form::New) if flags & ACCEPT != 0 => reply(ACCEPT),
        (7, Form::New) => reply(REASON),
        (SWEEP, _) => (0, NOW | AMOUNT),
        (10, _) => (0b0111, TO_TARGET),
        (11, _) => (0b0011, TO_TARGET | AMOUNT | LINK),
        _ => return None,
    })
}

/// Every way in which a record is malformed; of what it is about nothing is said if its length or
/// its operation is wrong.
pub fn faults(form: Form, record: &[u8]) -> Vec<Fault> {
    if record.len() != RECORD_BYTES {
        return vec![Fault::Length];
    }
    let mark = record[..2] != [0xA7, 0x3C];
    let (operation, flags) = (record[2], record[3]);
    let used = uses(form, operation, flags);
    let [now, signer, issued, expires, until] = [0, 1, 3, 4, 7].map(|place| word(record, place));
    let late = |time: u64| time > LAST_TIME;
    let (bits, words) = used.unwrap_or((u8::MAX, u16::MAX));
    let is_unused = |place: usize| words & 1 << place == 0 && word(record, place) != 0;
    let known = used.is_some();
    let faults = [
        (mark, Fault::Mark),
        (!known, Fault::Operation),
        (flags & !bits != 0, Fault::Flags),
        ((0..13).any(is_unused), Fault::Unused),
        (known && operation != SWEEP && signer == 0, Fault::Signer),
        (
            known && [now, issued, expires, until].into_iter().any(late),
            Fault::Time,
        ),
        (known && expires < issued, Fault::Window),
    ];
    let faults = faults.into_iter().filter(|(holds, _)| *holds);
    faults.map(|(_, fault)| fault).collect()
}

/// What looks like a reply of today by its operation and flags, all else in it being right.
#[derive(Clone, Copy, Debug, PartialEq, Eq)]
pub enum Looks {
    /// A reply.
    Reply(Reply),
    /// Operation 7 with bits 2 and 3.
    AcceptWithReason,
    /// Operation 7 with a bit that no reply uses.
    AnotherBit(Reply),
    /// Operation 8 with the flags that a dispute had.
    Eight(u8),
    /// Operation 8 with bit 2.
    EightWithBit2,
}

impl Looks {
    /// What these bytes look like.
    pub fn of(record: &[u8]) -> Option<Looks> {
        let (&operation, &flags) = (record.get(2)?, record.get(3)?);
        let reply = Reply::from_flags(flags);
        let others = flags & !(SIGNED | ACCEPT | REASON) != 0;
        match operation {
            7 => match faults(Form::New, record)[..] {
                [] => Some(Looks::Reply(reply)),
                [Fault::Flags] if others => Some(Looks::AnotherBit(reply)),
                [Fault::Flags] => Some(Looks::AcceptWithReason),
                _ => None,
            },
            8 => match faults(Form::Old, record)[..] {
                [] => Some(Looks::Eight(flags)),
                [Fault::Flags] if !others => Some(Looks::EightWithBit2),
                _ => None,
            },
            _ => None,
        }
    }

    /// Which reply it is, or would be if it were one.
    pub fn reply(self) -> Reply {
        match self {
            Looks::Reply(reply) | Looks::AnotherBit(reply) => reply,
            Looks::AcceptWithReason | Looks::EightWithBit2 => Reply::Accept,
            Looks::Eight(_) => Reply::Dispute,
        }
    }

    /// How it is told.
    pub fn name(self) -> String {
        match self {
            Looks::Reply(reply) => reply.to_string(),
            Looks::AcceptWithReason => "accept with a reason".to_owned(),
            Looks::AnotherBit(reply) => format!("{reply} with another bit"),
            Looks::Eight(flags) => format!("operation 8, flags {flags:04b}"),
            Looks::EightWithBit2 => "operation 8 with bit 2".to_owned(),
        }
    }
}
