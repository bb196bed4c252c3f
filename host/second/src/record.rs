//! Section "The submission record".

use crate::form::Form;
use crate::LAST_TIME;

/// "108 bytes: the two-byte mark A7 3C, operation, flags, nine little-endian
/// words ..., 32 hash bytes."
pub const RECORD_BYTES: usize = 108;

const MARK: [u8; 2] = [0xA7, 0x3C];

/// The place of the operation: after the mark.
pub const OPERATION_BYTE: usize = 2;

/// The place of the flags: after the operation.
pub const FLAGS_BYTE: usize = 3;

/// Flag bit 0, "signature held".
pub const SIGNATURE: u8 = 1;
/// Flag bit 1, "signer is an admin".
pub const ADMIN: u8 = 2;
/// Flag bit 2, "auto-accept or freeze".
pub const AUTO_OR_FREEZE: u8 = 4;
/// Flag bit 2 of a reply to a claim, of request 7/13: "bit 2 for accept, clear
/// for dispute".
pub const ACCEPT: u8 = 4;
/// Flag bit 3, "reason given".
pub const REASON: u8 = 8;

/// The fields of a record, in the record's order. "Hash words are
/// little-endian groups of 8."
#[derive(Clone, Copy, Debug, Default, PartialEq, Eq)]
pub struct Submission {
    pub op: u8,
    pub flags: u8,
    pub now: u64,
    pub signer: u64,
    pub nonce: u64,
    pub issued: u64,
    pub expires: u64,
    pub target: u64,
    pub amount: u64,
    pub until: u64,
    pub link: u64,
    pub hash: [u64; 4],
}

impl Submission {
    pub fn has(&self, flag: u8) -> bool {
        self.flags & flag != 0
    }
}

/// The first column of the table of operations, and operation 12 of request
/// 6/13. Accept and dispute stay two, though since request 7/13 one operation
/// byte stands for both.
#[derive(Clone, Copy, Debug, PartialEq, Eq)]
pub enum Operation {
    Grant,
    Transfer,
    Open,
    Release,
    Refund,
    Claim,
    Accept,
    Dispute,
    Sweep,
    Freeze,
    Caps,
    Close,
}

impl Operation {
    /// All but accept and dispute, whose numbers are a matter of the form.
    pub fn numbered(number: u8) -> Option<Operation> {
        Some(match number {
            1 => Operation::Grant,
            2 => Operation::Transfer,
            3 => Operation::Open,
            4 => Operation::Release,
            5 => Operation::Refund,
            6 => Operation::Claim,
            9 => Operation::Sweep,
            10 => Operation::Freeze,
            11 => Operation::Caps,
            12 => Operation::Close,
            _ => return None,
        })
    }
}

/// The second column of the table of operations: what each operation "uses".
/// "now" is used by all of them and is not listed.
#[derive(Default)]
struct Uses {
    /// signer, nonce, issued, expires and flag bit 0.
    envelope: bool,
    target: bool,
    amount: bool,
    until: bool,
    link: bool,
    hash: bool,
    /// The flag bits used besides bit 0.
    bits: u8,
}

fn uses(form: Form, operation: Operation) -> Uses {
    // "uses, besides now, signer, nonce, issued, expires, bit 0".
    let target = Uses {
        envelope: true,
        target: true,
        ..Uses::default()
    };
    match operation {
        Operation::Grant => Uses {
            amount: true,
            bits: ADMIN,
            ..target
        },
        Operation::Transfer => Uses {
            amount: true,
            ..target
        },
        Operation::Open => Uses {
            amount: true,
            until: true,
            ..target
        },
        // Of request 6/13: "Operation 12 ...: target, bit 1."
        Operation::Release | Operation::Refund | Operation::Close => Uses {
            bits: ADMIN,
            ..target
        },
        Operation::Claim => Uses {
            until: true,
            link: true,
            hash: true,
            bits: AUTO_OR_FREEZE,
            ..target
        },
        Operation::Accept => Uses {
            bits: form.bits_of_accept(),
            ..target
        },
        Operation::Dispute => Uses {
            bits: REASON,
            ..target
        },
        // "only now and amount (its limit)".
        Operation::Sweep => Uses {
            amount: true,
            ..Uses::default()
        },
        Operation::Freeze => Uses {
            bits: ADMIN | AUTO_OR_FREEZE,
            ..target
        },
        Operation::Caps => Uses {
            amount: true,
            link: true,
            bits: ADMIN,
            ..target
        },
    }
}

/// "Whatever an operation does not use is zero."
fn unused_are_zero(uses: &Uses, s: &Submission) -> bool {
    let bits = if uses.envelope {
        uses.bits | SIGNATURE
    } else {
        uses.bits
    };
    s.flags & !bits == 0
        && (uses.envelope || [s.signer, s.nonce, s.issued, s.expires] == [0; 4])
        && (uses.target || s.target == 0)
        && (uses.amount || s.amount == 0)
        && (uses.until || s.until == 0)
        && (uses.link || s.link == 0)
        && (uses.hash || s.hash == [0; 4])
}

/// The operation of well-formed fields; none for malformed ones. "A record is
/// malformed if ... the ... operation is wrong, an unused part is nonzero,
/// signer is 0 (except 9), now, issued, expires or until exceeds 2^48 − 1, or
/// expires < issued."
fn well_formed(form: Form, s: &Submission) -> Option<Operation> {
    let operation = form.operation(s.op, s.flags)?;
    let malformed = !unused_are_zero(&uses(form, operation), s)
        || (s.signer == 0 && operation != Operation::Sweep)
        || s.now > LAST_TIME
        || s.issued > LAST_TIME
        || s.expires > LAST_TIME
        || s.until > LAST_TIME
        || s.expires < s.issued;
    if malformed {
        None
    } else {
        Some(operation)
    }
}

/// The operation and fields of a well-formed record; none for a malformed one.
pub fn parse(form: Form, record: &[u8]) -> Option<(Operation, Submission)> {
    if record.len() != RECORD_BYTES || record[..2] != MARK {
        return None;
    }
    let mut words = [0; 13];
    for (word, bytes) in words.iter_mut().zip(record[4..].chunks_exact(8)) {
        let mut group = [0; 8];
        group.copy_from_slice(bytes);
        *word = u64::from_le_bytes(group);
    }
    let submission = Submission {
        op: record[OPERATION_BYTE],
        flags: record[FLAGS_BYTE],
        now: words[0],
        signer: words[1],
        nonce: words[2],
        issued: words[3],
        expires: words[4],
        target: words[5],
        amount: words[6],
        until: words[7],
        link: words[8],
        hash: [words[9], words[10], words[11], words[12]],
    };
    well_formed(form, &submission).map(|operation| (operation, submission))
}

/// "A malformed record is read as answer 3 with every field 0."
pub fn read(record: &[u8]) -> (u64, Submission) {
    read_in(Form::New, record)
}

/// `read` in either form.
pub fn read_in(form: Form, record: &[u8]) -> (u64, Submission) {
    match parse(form, record) {
        Some((_, submission)) => (0, submission),
        None => (3, Submission::default()),
    }
}

/// "The writer answers 3 for fields that would be malformed or an output not
/// 108 bytes long, and the output stays."
pub fn write(submission: &Submission, out: &mut [u8]) -> u64 {
    write_in(Form::New, submission, out)
}

/// `write` in either form.
pub fn write_in(form: Form, submission: &Submission, out: &mut [u8]) -> u64 {
    if out.len() != RECORD_BYTES || well_formed(form, submission).is_none() {
        return 3;
    }
    let s = submission;
    out[..2].copy_from_slice(&MARK);
    out[OPERATION_BYTE] = s.op;
    out[FLAGS_BYTE] = s.flags;
    let [first, second, third, fourth] = s.hash;
    let words = [
        s.now, s.signer, s.nonce, s.issued, s.expires, s.target, s.amount, s.until, s.link, first,
        second, third, fourth,
    ];
    for (bytes, word) in out[4..].chunks_exact_mut(8).zip(words) {
        bytes.copy_from_slice(&word.to_le_bytes());
    }
    0
}
