//! Replies to claims by the checks that decided them, and records that are no reply though they look
//! like one.
//!
//! A program that asks for something of one reply only, in another place of the table, or takes what
//! is malformed for a reply answers such submissions otherwise and no other; so a run must come to
//! them. They are worked out here from the tables before and after, by neither program.

use milebeacon::{EscrowState, Ledger, ReceiptRow, ReceiptState, Reply};

use crate::reached::Reached;
use crate::record::word;
use crate::shape::Looks;
use crate::twin::World;
use crate::window::row_of;

/// Checks that a reply shares with most operations.
const SHARED: [u64; 7] = [4, 5, 6, 8, 9, 10, 11];

/// What a run must come to of each reply, at least once: an answer; and each check that holds beside
/// it, no other doing so, 0 if it holds alone.
const ACCEPTS: [(u64, &[u64]); 6] = [
    // the same accept once more
    (11, &[34]),
    (32, &[0, 40]),
    (33, &[0, 34, 41, 40]),
    (34, &[0, 41, 40]),
    (41, &[0, 40]),
    (40, &[0]),
];
const DISPUTES: [(u64, &[u64]); 7] = [
    (11, &[34]),
    (32, &[0, 35, 40]),
    (33, &[0, 34, 41, 35, 40]),
    (34, &[0, 41, 35, 40]),
    (41, &[0, 35, 40]),
    (35, &[0, 40]),
    (40, &[0]),
];

/// Those that settled.
const SETTLED: [&str; 6] = [
    "accept settled, its escrow released",
    "accept settled, its escrow not open or stale",
    "accept settled, no escrow linked",
    "dispute settled, its escrow left open",
    "dispute settled, its escrow not open",
    "dispute settled, no escrow linked",
];

/// What is answered 3; and for each what it would have been answered as a reply, 0 if it would have
/// settled.
const MALFORMED: [(Looks, &[u64]); 8] = [
    (Looks::AcceptWithReason, &[0, 6, 32, 33, 34, 41]),
    (Looks::AnotherBit(Reply::Accept), &[0]),
    (Looks::AnotherBit(Reply::Dispute), &[0]),
    (Looks::Eight(0b1001), &[0, 32, 33, 34, 41]),
    (Looks::Eight(0b0001), &[35]),
    (Looks::Eight(0b1000), &[6]),
    (Looks::Eight(0b0000), &[6]),
    (Looks::EightWithBit2, &[0]),
];

/// What no submission may come to: an accept is never answered 35, the journal says operation 7 for
/// both replies, and the receipt says which one it was.
pub const NEVER: [&str; 3] = [
    "reply answered otherwise than by its first check",
    "reply settled, and not in the journal as operation 7",
    "reply settled, and its receipt is not closed so",
];

/// Counts of the submissions that were decided so.
pub fn none() -> Reached {
    let each = |reply: Reply, checks: &[(u64, &[u64])]| -> Vec<String> {
        let shared = SHARED.map(|number| format!("{reply}: {number}"));
        let pairs = checks.iter().flat_map(|&(number, others)| {
            let others = others.iter().map(move |&other| beside(other));
            others.map(move |other| format!("{reply}: {number} {other}"))
        });
        shared.into_iter().chain(pairs).collect()
    };
    let malformed = MALFORMED.iter().flat_map(|&(looks, answers)| {
        let answers = answers.iter().map(|&number| beside(number));
        answers.map(move |other| format!("{}: 3 {other}", looks.name()))
    });
    let mut wanted: Vec<String> = SETTLED.iter().map(|&way| way.to_owned()).collect();
    wanted.extend(each(Reply::Accept, &ACCEPTS));
    wanted.extend(each(Reply::Dispute, &DISPUTES));
    wanted.extend(malformed);
    Reached::of("replies by what decided them", wanted)
}

fn beside(other: u64) -> String {
    match other {
        0 => "alone".to_owned(),
        _ => format!("and not {other}"),
    }
}

/// What a submission with this answer came to, given the tables before and after it: nothing unless
/// the ledger is sound and the record looks like a reply.
pub fn decided(before: &World, after: &World, record: &[u8], answer: u64) -> Vec<String> {
    let looks = match Looks::of(record) {
        Some(looks) if !matches!(answer, 1 | 2) => looks,
        _ => return Vec::new(),
    };
    let ledger = Ledger::over(before.as_ref());
    let asked = Asked::new(before, &ledger, record, looks.reply());
    let holding = asked.holding();
    let first = holding.first().copied().unwrap_or(0);
    let name = looks.name();
    let [otherwise, journal, receipt] = NEVER;
    match looks {
        Looks::Reply(_) if answer != first => vec![otherwise.to_owned()],
        Looks::Reply(_) if answer == 0 => {
            let ledger = Ledger::over(after.as_ref());
            let entry = ledger.journal().last();
            if entry.map_or(true, |row| row.operation_word() != 7) {
                vec![journal.to_owned()]
            } else if !asked.is_closed(&ledger) {
                vec![receipt.to_owned()]
            } else {
                vec![format!("{name} settled, {}", asked.escrow(&ledger))]
            }
        }
        Looks::Reply(_) => {
            let beside = match holding[..] {
                [_] => Some(beside(0)),
                [_, other] => Some(beside(other)),
                _ => None,
            };
            let shared = SHARED
                .contains(&answer)
                .then(|| format!("{name}: {answer}"));
            let beside = beside.map(|other| format!("{name}: {answer} {other}"));
            shared.into_iter().chain(beside).collect()
        }
        _ if answer != 3 => vec![otherwise.to_owned()],
        _ => vec![format!("{name}: 3 {}", beside(first))],
    }
}

/// A record that is a reply or looks like one, and the tables that it is submitted to.
struct Asked<'a> {
    reply: Reply,
    flags: u8,
    now: u64,
    signer: u64,
    nonce: u64,
    issued: u64,
    expires: u64,
    target: u64,
    receipt: Option<ReceiptRow<'a>>,
    ledger: &'a Ledger<&'a [u64]>,
    full: bool,
}

impl<'a> Asked<'a> {
    fn new(
        before: &World,
        ledger: &'a Ledger<&'a [u64]>,
        record: &[u8],
        reply: Reply,
    ) -> Asked<'a> {
        let [now, signer, nonce, issued, expires, target] =
            [0, 1, 2, 3, 4, 5].map(|place| word(record, place));
        Asked {
            reply,
            flags: record[3],
            now,
            signer,
            nonce,
            issued,
            expires,
            target,
            receipt: row_of(ledger.receipts(), target),
            ledger,
            full: before.header[7] == (before.journal.len() / 8) as u64,
        }
    }

    /// The checks that hold, in the order of the table.
    fn holding(&self) -> Vec<u64> {
        let of = |holds: &dyn Fn(ReceiptRow<'_>) -> bool| self.receipt.map_or(false, holds);
        let (now, signer, nonce) = (self.now, self.signer, self.nonce);
        let mut journal = self.ledger.journal();
        let pending = Some(ReceiptState::Pending);
        let unreasoned = self.reply == Reply::Dispute && self.flags & 0b1000 == 0;
        let checks = [
            (4, now < self.ledger.last_clock()),
            (5, self.ledger.is_frozen()),
            (6, self.flags & 0b0001 == 0),
            (8, self.issued > now + 30_000),
            (9, now > self.expires),
            (10, self.expires - self.issued > 3_600_000),
            (
                11,
                journal.any(|row| (row.signer(), row.nonce()) == (signer, nonce)),
            ),
            (32, self.receipt.is_none()),
            (33, of(&|row| row.requester() != signer)),
            (34, of(&|row| row.state() != pending)),
            (41, of(&|row| row.acceptance_deadline() < now)),
            (35, unreasoned),
            (40, self.full),
        ];
        let checks = checks.into_iter().filter(|(_, holds)| *holds);
        checks.map(|(number, _)| number).collect()
    }

    /// Whether the receipt says afterwards what was replied.
    fn is_closed(&self, after: &Ledger<&[u64]>) -> bool {
        let meant = match self.reply {
            Reply::Accept => ReceiptState::Accepted,
            Reply::Dispute => ReceiptState::Disputed,
        };
        let receipt = row_of(after.receipts(), self.target);
        receipt.map_or(false, |row| row.state() == Some(meant))
    }

    /// What became of the escrow, once settled.
    fn escrow(&self, after: &Ledger<&[u64]>) -> &'static str {
        let link = self.receipt.map_or(0, |row| row.link());
        let state = |ledger: &Ledger<&[u64]>| {
            let escrow = row_of(ledger.escrows(), link);
            escrow.and_then(|row| row.state())
        };
        match (self.reply, state(self.ledger), state(after)) {
            (_, None, _) => "no escrow linked",
            (Reply::Accept, Some(EscrowState::Open), Some(EscrowState::Released)) => {
                "its escrow released"
            }
            (Reply::Accept, _, _) => "its escrow not open or stale",
            (Reply::Dispute, Some(EscrowState::Open), _) => "its escrow left open",
            (Reply::Dispute, _, _) => "its escrow not open",
        }
    }
}
