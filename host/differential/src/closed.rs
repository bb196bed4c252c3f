//! Records that name a closed wallet, and which other checks would have refused them.
//!
//! A program that asks for closed wallets in another place of the table, or not for every wallet
//! that a record names, answers such submissions otherwise and no other; so a run must come to them
//! with each of the checks that stand before 43 and behind it. They are worked out here from the
//! tables, by neither program.

use milebeacon::{EscrowRow, EscrowState, Ledger, WalletRow};

use crate::left::{Left, Recipients};
use crate::reached::Reached;
use crate::record::word;
use crate::step::{DAY_MS, MOST_GRANTED};
use crate::twin::World;
use crate::view::View;

/// What a run must come to, each at least once: a record and its closed wallet; the checks before 43
/// that answer it all the same, 11 standing for 4 to 11; and the checks behind 43, each of which
/// would have answered it if 43 had not, 0 if it would have settled. 16 and 37 ask for a target that
/// is missing, so they never hold for a closed one.
const WANTED: [(&str, &[u64], &[u64]); 17] = [
    ("grant to a closed wallet", &[11, 12], &[0, 36, 40]),
    (
        "transfer by a closed wallet",
        &[11, 12, 15],
        &[0, 17, 18, 19, 37, 40],
    ),
    (
        "transfer to a closed wallet",
        &[11, 12, 13, 14],
        &[0, 17, 18, 19, 40],
    ),
    ("transfer between closed wallets", &[], &[0]),
    ("transfer by a closed wallet to itself", &[15], &[]),
    (
        "open by a closed wallet",
        &[11, 12, 15],
        &[0, 17, 18, 19, 20, 21, 37, 38, 40],
    ),
    (
        "open to a closed wallet",
        &[11, 12, 13, 14],
        &[0, 17, 18, 19, 20, 21, 38, 40],
    ),
    ("open between closed wallets", &[], &[0]),
    ("open by a closed wallet to itself", &[15], &[]),
    (
        "claim by a closed wallet",
        &[11, 15],
        &[0, 23, 24, 25, 26, 27, 29, 30, 31, 39, 40],
    ),
    (
        "claim to a closed wallet",
        &[11],
        &[0, 22, 24, 25, 26, 27, 29, 30, 31, 39, 40],
    ),
    ("claim between closed wallets", &[], &[0]),
    ("claim by a closed wallet to itself", &[15], &[]),
    ("freeze of a closed wallet", &[11], &[0, 40]),
    ("thaw of a closed wallet", &[11], &[0, 40]),
    ("caps of a closed wallet", &[11, 12], &[0, 40]),
    ("close of a closed wallet", &[11], &[0, 42, 40]),
];

/// What no submission may come to: 43 and the checks before it are all that a record can be answered
/// that names a closed wallet.
pub const NEVER: &str = "closed wallet not asked for";

const FREEZE_BIT: u8 = 0b0100;
const WEEK_MS: u64 = 7 * DAY_MS;

/// Counts of the submissions that were decided so.
pub fn none() -> Reached {
    let wanted = WANTED.iter().flat_map(|&(record, before, behind)| {
        let before = before.iter().map(move |&number| answered(record, number));
        let behind = behind.iter().map(move |&number| instead_of(record, number));
        before.chain(behind)
    });
    Reached::of("records that name a closed wallet", wanted.collect())
}

/// By a check before 43.
fn answered(record: &str, number: u64) -> String {
    match number {
        4..=11 => format!("{record}: 4 to 11"),
        _ => format!("{record}: {number}"),
    }
}

/// By 43, where otherwise this would have been answered.
fn instead_of(record: &str, number: u64) -> String {
    match number {
        0 => format!("{record}: 43 alone"),
        _ => format!("{record}: 43 and not {number}"),
    }
}

/// What a submission with this answer came to, given the tables before it: nothing unless the ledger
/// is sound, the record is well formed, and a wallet that it names is closed.
pub fn decided(before: &World, record: &[u8], answer: u64) -> Vec<String> {
    let names_wallets = matches!(record.get(2), Some(1 | 2 | 3 | 6 | 10 | 11 | 12));
    if !names_wallets || (1..=3).contains(&answer) {
        return Vec::new();
    }
    let ledger = Ledger::over(before.as_ref());
    let asked = Asked::new(before, &ledger, record);
    let way = asked.name().map(|name| match answer {
        43 => instead_of(&name, asked.next()),
        4..=15 => answered(&name, answer),
        _ => NEVER.to_owned(),
    });
    way.into_iter().collect()
}

/// A record of one of the operations that name wallets, and the rows that it names.
struct Asked<'a> {
    before: &'a World,
    ledger: &'a Ledger<&'a [u64]>,
    op: u8,
    flags: u8,
    now: u64,
    signer: u64,
    issued: u64,
    target: u64,
    amount: u64,
    until: u64,
    link: u64,
    /// The signer's wallet, where a record names it.
    sender: Option<WalletRow<'a>>,
    recipient: Option<WalletRow<'a>>,
    escrow: Option<EscrowRow<'a>>,
}

impl<'a> Asked<'a> {
    fn new(before: &'a World, ledger: &'a Ledger<&'a [u64]>, record: &[u8]) -> Asked<'a> {
        let (op, flags) = (record[2], record[3]);
        let [now, signer, issued] = [0, 1, 3].map(|place| word(record, place));
        let [target, amount, until, link] = [5, 6, 7, 8].map(|place| word(record, place));
        let wallet = |id: u64| ledger.wallets().find(|row| row.id() == id);
        let place = usize::try_from(link).ok().and_then(|n| n.checked_sub(1));
        Asked {
            before,
            ledger,
            op,
            flags,
            now,
            signer,
            issued,
            target,
            amount,
            until,
            link,
            sender: wallet(signer).filter(|_| matches!(op, 2 | 3 | 6)),
            recipient: wallet(target),
            escrow: place.and_then(|place| ledger.escrows().nth(place)),
        }
    }

    /// How the record is told; not at all if no wallet that it names is closed.
    fn name(&self) -> Option<String> {
        let is_closed = |row: Option<WalletRow<'_>>| row.map_or(false, |row| row.is_closed());
        let operation = match self.op {
            1 => "grant",
            2 => "transfer",
            3 => "open",
            6 => "claim",
            10 if self.flags & FREEZE_BIT != 0 => "freeze",
            10 => "thaw",
            11 => "caps",
            _ => "close",
        };
        let parties = match (is_closed(self.sender), is_closed(self.recipient)) {
            (false, false) => return None,
            (true, false) => "by a closed wallet",
            (true, true) if self.signer == self.target => "by a closed wallet to itself",
            (true, true) => "between closed wallets",
            (false, true) if matches!(self.op, 10..=12) => "of a closed wallet",
            (false, true) => "to a closed wallet",
        };
        Some(format!("{operation} {parties}"))
    }

    /// The first check behind 43 that holds, or 0.
    fn next(&self) -> u64 {
        let full = |place: usize, table: &[u64], words: usize| {
            self.before.header[place] == (table.len() / words) as u64
        };
        let needs_a_row = self.recipient.is_none() && full(4, &self.before.wallets, 6);
        let limit = u128::from(self.ledger.granted_total()) + u128::from(self.amount);
        let own = match self.op {
            1 => vec![(36, limit > u128::from(MOST_GRANTED)), (37, needs_a_row)],
            2 => [self.payment(), vec![(37, needs_a_row)]].concat(),
            3 => {
                let deadline = vec![
                    (20, self.until <= self.now),
                    (21, self.until > self.now + WEEK_MS),
                    (37, needs_a_row),
                    (38, full(5, &self.before.escrows, 8)),
                ];
                [self.payment(), deadline].concat()
            }
            6 => {
                let no_room = vec![(39, full(6, &self.before.receipts, 14))];
                [self.claim(), self.link(), no_room].concat()
            }
            12 => vec![(42, self.is_left())],
            _ => Vec::new(),
        };
        let last = (40, full(7, &self.before.journal, 8));
        let mut checks = own.into_iter().chain([last]);
        checks
            .find(|(_, holds)| *holds)
            .map_or(0, |(number, _)| number)
    }

    fn payment(&self) -> Vec<(u64, bool)> {
        let of = |holds: &dyn Fn(WalletRow<'_>) -> bool| self.sender.map_or(false, holds);
        let counted = View::new(self.before).counted(self.signer, self.now);
        vec![
            (17, of(&|row| row.balance() < self.amount)),
            (18, of(&|row| self.amount > row.per_transaction_cap())),
            (19, of(&|row| self.amount + counted > row.daily_cap())),
        ]
    }

    fn claim(&self) -> Vec<(u64, bool)> {
        vec![
            (22, self.sender.is_none()),
            (23, self.recipient.is_none()),
            (24, self.until < self.issued + 300_000),
            (25, self.until > self.issued + WEEK_MS),
            (26, self.until < self.now),
        ]
    }

    /// The checks of a claim's escrow.
    fn link(&self) -> Vec<(u64, bool)> {
        let of = |holds: &dyn Fn(EscrowRow<'_>) -> bool| self.escrow.map_or(false, holds);
        let open = Some(EscrowState::Open);
        vec![
            (27, self.link != 0 && self.escrow.is_none()),
            (29, of(&|row| row.state() != open || row.is_stale(self.now))),
            (
                30,
                of(&|row| row.from() != self.target || row.to() != self.signer),
            ),
            (31, of(&|row| self.until > row.deadline())),
        ]
    }

    fn is_left(&self) -> bool {
        let recipients = Recipients::of(self.ledger, self.now);
        self.recipient
            .map_or(false, |row| recipients.left(&row) != Left::NOTHING)
    }
}
