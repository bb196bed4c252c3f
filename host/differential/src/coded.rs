//! Replies, and what looks like them, as the writer and the reader were given them.

use milebeacon::Reply;

use crate::reached::Reached;
use crate::shape::Looks;

/// What a run must come to, each at least once, with "written" and "read" before it.
const TAKEN: [&str; 3] = [
    "accept",
    "dispute with a reason",
    "dispute without a reason",
];

/// The same with "not written" and "not read" before it.
const REFUSED: [Looks; 8] = [
    Looks::AcceptWithReason,
    Looks::AnotherBit(Reply::Accept),
    Looks::AnotherBit(Reply::Dispute),
    Looks::Eight(0b1001),
    Looks::Eight(0b0001),
    Looks::Eight(0b1000),
    Looks::Eight(0b0000),
    Looks::EightWithBit2,
];

/// What was called.
#[derive(Clone, Copy, Debug, PartialEq, Eq)]
pub enum Call {
    /// The writer.
    Written,
    /// The reader.
    Read,
}

impl Call {
    fn name(self) -> &'static str {
        match self {
            Call::Written => "written",
            Call::Read => "read",
        }
    }
}

/// Counts of what was written and read.
pub fn none() -> Reached {
    let mut wanted = Vec::new();
    for call in [Call::Written, Call::Read].map(Call::name) {
        wanted.extend(TAKEN.map(|reply| format!("{call}: {reply}")));
        wanted.extend(REFUSED.map(|looks| format!("not {call}: {}", looks.name())));
    }
    Reached::of("replies written and read", wanted)
}

/// What a call with this answer came to; the record is the one that was read, or was to be written.
pub fn decided(call: Call, record: &[u8], answer: u64) -> Vec<String> {
    let looks = match Looks::of(record) {
        Some(looks) => looks,
        None => return Vec::new(),
    };
    let name = match looks {
        Looks::Reply(Reply::Dispute) if record[3] & 0b1000 != 0 => "dispute with a reason",
        Looks::Reply(Reply::Dispute) => "dispute without a reason",
        _ => "",
    };
    let name = match name {
        "" => looks.name(),
        name => name.to_owned(),
    };
    let not = if answer == 0 { "" } else { "not " };
    vec![format!("{not}{}: {name}", call.name())]
}
