//! Section "Numbered answers, in order of check", from 4 on.

use crate::record::{Operation, Submission, ADMIN, REASON, SIGNATURE};
use crate::rows::{Escrow, EscrowState, Frozen, Receipt, ReceiptState, Wallet};
use crate::tables::Ledger;
use crate::wallets::FoundWallet;
use crate::{MOST_AMOUNT, MOST_GRANTED};

use Operation::{
    Accept, Caps, Claim, Close, Dispute, Freeze, Grant, Open, Refund, Release, Sweep, Transfer,
};

/// What a condition is asked of: the ledger, the submission, and the rows the
/// submission names. "A condition about a row that isn't there does not hold,
/// except where the row's absence is the refusal."
struct Case<'a> {
    ledger: &'a Ledger,
    op: Operation,
    s: &'a Submission,
    /// The signer's wallet.
    sender: FoundWallet<&'a Wallet>,
    /// The wallet whose id is target.
    target: FoundWallet<&'a Wallet>,
    /// The escrow of 4 and 5 (target) or of a linked 6 (link).
    escrow: Option<&'a Escrow>,
    /// The receipt of an accept or a dispute (target).
    receipt: Option<&'a Receipt>,
}

type Condition = fn(&Case<'_>) -> bool;

/// The table's rows in the table's order, which since request 5/13 is the order
/// of the answers: "Demand 2's order is now that of the table's rows, not of
/// the numbers."
const CONDITIONS: [(u64, Condition); 40] = [
    // clock_back: now < last clock
    (4, |c| c.s.now < c.ledger.clock),
    // system_frozen: set (1–9)
    (5, |c| {
        c.ledger.system_frozen && !c.is(&[Freeze, Caps, Close])
    }),
    // invalid_signature: bit 0 clear (all but 9)
    (6, |c| !c.is(&[Sweep]) && !c.s.has(SIGNATURE)),
    // not_admin: bit 1 clear (1, 10, 11; 12)
    (7, |c| {
        c.is(&[Grant, Freeze, Caps, Close]) && !c.s.has(ADMIN)
    }),
    // envelope_not_yet_valid: issued > now + 30,000 (not 9)
    (8, |c| !c.is(&[Sweep]) && after(c.s.issued, c.s.now, 30_000)),
    // envelope_expired: now > expires (not 9)
    (9, |c| !c.is(&[Sweep]) && c.s.now > c.s.expires),
    // envelope_window_too_long: expires − issued > 3,600,000 (not 9)
    (10, |c| {
        !c.is(&[Sweep]) && after(c.s.expires, c.s.issued, 3_600_000)
    }),
    // nonce_seen: a journal row has signer and nonce (not 9)
    (11, |c| !c.is(&[Sweep]) && nonce_seen(c)),
    (12, amount_out_of_range),
    // sender_not_found, sender_frozen: signer's wallet (2, 3); of request 6/13: "refusal 14 is
    // given for the word 1 only"
    (13, |c| c.is(&[Transfer, Open]) && c.sender.is_missing()),
    (14, |c| c.pays(|sender| sender.frozen == Frozen::Yes)),
    // recipient_invalid: target 0 (1–3, 6) or target = signer (2, 3, 6)
    (15, |c| {
        (c.is(&[Grant, Transfer, Open, Claim]) && c.s.target == 0)
            || (c.is(&[Transfer, Open, Claim]) && c.s.target == c.s.signer)
    }),
    // wallet_not_found: no wallet for target (10 with target not 0; 11; 12)
    (16, |c| {
        ((c.is(&[Freeze]) && c.s.target != 0) || c.is(&[Caps, Close])) && c.target.is_missing()
    }),
    // wallet_closed, of request 6/13: "given when a wallet named by the record (signer in 2, 3, 6;
    // target in 1, 2, 3, 6, 10, 11, 12) is closed; it stands right after 16"
    (43, |c| {
        (c.is(&[Transfer, Open, Claim]) && c.sender.is_closed())
            || (c.is(&[Grant, Transfer, Open, Claim, Freeze, Caps, Close]) && c.target.is_closed())
    }),
    // wallet_not_empty, of request 6/13: "follows it, for operation 12 on a wallet with balance,
    // locked credits or an open escrow to it"
    (42, |c| c.is(&[Close]) && not_empty(c)),
    // insufficient_balance: balance < amount (2, 3)
    (17, |c| c.pays(|sender| sender.balance < c.s.amount)),
    // per_tx_cap_exceeded: amount > cap (2, 3)
    (18, |c| c.pays(|sender| c.s.amount > sender.per_tx_cap)),
    // daily_cap_exceeded: amount plus the counted rows' amounts > daily cap (2, 3)
    (19, |c| {
        c.pays(|sender| u128::from(c.s.amount) + counted_amounts(c) > u128::from(sender.daily_cap))
    }),
    // escrow_deadline_past: until ≤ now (3)
    (20, |c| c.is(&[Open]) && c.s.until <= c.s.now),
    // escrow_deadline_exceeds_max: until > now + 604,800,000 (3)
    (21, |c| {
        c.is(&[Open]) && after(c.s.until, c.s.now, 604_800_000)
    }),
    // provider_not_found, requester_not_found: no wallet for signer; for target (6)
    (22, |c| c.is(&[Claim]) && c.sender.is_missing()),
    (23, |c| c.is(&[Claim]) && c.target.is_missing()),
    // acceptance_window_too_short: until < issued + 300,000 (6)
    (24, |c| {
        c.is(&[Claim]) && u128::from(c.s.until) < u128::from(c.s.issued) + 300_000
    }),
    // acceptance_window_too_long: until > issued + 604,800,000 (6)
    (25, |c| {
        c.is(&[Claim]) && after(c.s.until, c.s.issued, 604_800_000)
    }),
    // acceptance_deadline_past: until < now (6)
    (26, |c| c.is(&[Claim]) && c.s.until < c.s.now),
    // escrow_not_found: no such written row (4, 5; 6 with link not 0)
    (27, |c| {
        (c.is(&[Release, Refund]) || (c.is(&[Claim]) && c.s.link != 0)) && c.escrow.is_none()
    }),
    // escrow_signer_not_authorized: signer is not from and bit 1 clear (4, 5)
    (28, |c| {
        c.is(&[Release, Refund])
            && c.of_escrow(|escrow| c.s.signer != escrow.from && !c.s.has(ADMIN))
    }),
    // escrow_not_open: state not 1, or stale (4, 5, linked 6)
    (29, |c| {
        c.of_escrow(|escrow| !escrow.open_and_not_stale(c.s.now))
    }),
    // escrow_did_mismatch: from not target or to not signer (linked 6)
    (30, |c| {
        c.is(&[Claim]) && c.of_escrow(|escrow| escrow.from != c.s.target || escrow.to != c.s.signer)
    }),
    // acceptance_deadline_exceeds_escrow: until > escrow deadline (linked 6)
    (31, |c| {
        c.is(&[Claim]) && c.of_escrow(|escrow| c.s.until > escrow.deadline)
    }),
    // receipt_not_found (accept, dispute). Of request 7/13: "Checks 32, 33, 34, 41 and 35 keep their
    // order, 35 only for a dispute."
    (32, |c| c.is(&[Accept, Dispute]) && c.receipt.is_none()),
    // receipt_signer_not_authorized: signer is not the requester (accept, dispute)
    (33, |c| {
        c.of_receipt(|receipt| c.s.signer != receipt.requester)
    }),
    // receipt_not_pending (accept, dispute)
    (34, |c| {
        c.of_receipt(|receipt| receipt.state != ReceiptState::Pending)
    }),
    // acceptance_closed, of request 5/13: "Accept and dispute are now refused when the receipt's
    // acceptance deadline < now. The new answer 41 ... stands between 34 and 35, so a closed
    // receipt still answers 34."
    (41, |c| c.of_receipt(|receipt| receipt.deadline < c.s.now)),
    // dispute_reason_required: bit 3 clear (dispute)
    (35, |c| c.is(&[Dispute]) && !c.s.has(REASON)),
    // grant_limit: granted total + amount > 10^18 (1)
    (36, |c| {
        c.is(&[Grant])
            && u128::from(c.ledger.granted) + u128::from(c.s.amount) > u128::from(MOST_GRANTED)
    }),
    // wallet_table_full: target needs a row, none unwritten (1–3)
    (37, |c| {
        c.is(&[Grant, Transfer, Open]) && c.target.is_missing() && c.ledger.wallets.is_full()
    }),
    // escrow_, receipt_, journal_table_full: no unwritten row (3; 6; all but 9)
    (38, |c| c.is(&[Open]) && c.ledger.escrows.is_full()),
    (39, |c| c.is(&[Claim]) && c.ledger.receipts.is_full()),
    (40, |c| !c.is(&[Sweep]) && c.ledger.journal.is_full()),
];

impl Case<'_> {
    /// The operations a condition is listed for.
    fn is(&self, listed: &[Operation]) -> bool {
        listed.contains(&self.op)
    }

    /// A condition about the signer's wallet (2, 3); the row is there if it is closed, too.
    fn pays(&self, condition: impl Fn(&Wallet) -> bool) -> bool {
        self.is(&[Transfer, Open]) && self.sender.live_or_closed().map_or(false, condition)
    }

    /// A condition about the named escrow (4, 5, linked 6).
    fn of_escrow(&self, condition: impl Fn(&Escrow) -> bool) -> bool {
        self.escrow.map_or(false, condition)
    }

    /// A condition about the named receipt (accept, dispute).
    fn of_receipt(&self, condition: impl Fn(&Receipt) -> bool) -> bool {
        self.receipt.map_or(false, condition)
    }
}

/// "Sums and comparisons mean whole numbers and never wrap": time > from + span.
fn after(time: u64, from: u64, span: u64) -> bool {
    u128::from(time) > u128::from(from) + u128::from(span)
}

/// "a journal row has signer and nonce".
fn nonce_seen(c: &Case<'_>) -> bool {
    let mut entries = c.ledger.journal.rows.iter();
    entries.any(|entry| entry.signer == c.s.signer && entry.nonce == c.s.nonce)
}

/// "amount 0 or > 10^15 (1–3); limit not 1..1,000 (9); a cap > 10^15 (11)".
fn amount_out_of_range(c: &Case<'_>) -> bool {
    match c.op {
        Grant | Transfer | Open => c.s.amount == 0 || c.s.amount > MOST_AMOUNT,
        Sweep => c.s.amount < 1 || c.s.amount > 1_000,
        Caps => c.s.amount > MOST_AMOUNT || c.s.link > MOST_AMOUNT,
        _ => false,
    }
}

/// "a wallet with balance, locked credits or an open escrow to it". An escrow
/// whose state is 1 is open, stale or not.
fn not_empty(c: &Case<'_>) -> bool {
    let mut escrows = c.ledger.escrows.rows.iter();
    let mut open_to = |id| escrows.any(|e| e.state == EscrowState::Open && e.to == id);
    c.target.live_or_closed().map_or(false, |wallet| {
        wallet.balance != 0 || wallet.locked != 0 || open_to(wallet.id)
    })
}

/// "Counted rows for 19: the signer's journal rows of operation 2 with settled
/// at + 86,400,000 ≥ now", as changed by request 2/13: "Counted rows are from
/// now on the signer's rows of operations 2 and 3. A later refund does not give
/// room back." So the journal alone decides, and no escrow is looked at.
fn counted_amounts(c: &Case<'_>) -> u128 {
    let entries = c.ledger.journal.rows.iter();
    entries
        .filter(|entry| {
            entry.signer == c.s.signer
                && matches!(entry.operation, 2 | 3)
                && u128::from(entry.settled_at) + 86_400_000 >= u128::from(c.s.now)
        })
        .map(|entry| u128::from(entry.amount))
        .sum()
}

/// "The answer is the lowest number whose condition holds", as changed by
/// request 5/13: the number of the first of the table's rows whose condition
/// holds, from the top; none if none does.
pub fn refusal(ledger: &Ledger, op: Operation, s: &Submission) -> Option<u64> {
    let case = Case {
        ledger,
        op,
        s,
        sender: ledger.wallet(s.signer),
        target: ledger.wallet(s.target),
        escrow: match op {
            Release | Refund => ledger.escrows.numbered(s.target),
            Claim => ledger.escrows.numbered(s.link),
            _ => None,
        },
        receipt: match op {
            Accept | Dispute => ledger.receipts.numbered(s.target),
            _ => None,
        },
    };
    let mut conditions = CONDITIONS.iter();
    conditions
        .find(|(_, holds)| holds(&case))
        .map(|(number, _)| *number)
}
