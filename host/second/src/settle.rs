//! Section "What settling does". Every function here works on a sound ledger
//! and a submission that no condition refuses, so the wallets an escrow names
//! are there, a sender holds what it gives, and no sum exceeds 10^18.

use crate::record::{Operation, Submission, AUTO_OR_FREEZE};
use crate::rows::{Entry, Escrow, EscrowState, Frozen, Receipt, ReceiptState, Wallet};
use crate::tables::Ledger;

/// "per-transaction cap 100,000,000, daily cap 1,000,000,000".
const FIRST_PER_TX_CAP: u64 = 100_000_000;
const FIRST_DAILY_CAP: u64 = 1_000_000_000;

/// "If a linked release is impossible, release code 29 is stored".
const RELEASE_IMPOSSIBLE: u64 = 29;

/// The answer word of a submission that settles.
pub fn settle(ledger: &mut Ledger, operation: Operation, s: &Submission) -> u64 {
    let word = match operation {
        Operation::Grant => grant(ledger, s),
        Operation::Transfer => transfer(ledger, s),
        Operation::Open => open(ledger, s),
        Operation::Release => {
            close_escrow(ledger, s.target, EscrowState::Released, s.now, s.signer);
            0
        }
        Operation::Refund => {
            close_escrow(ledger, s.target, EscrowState::Refunded, s.now, s.signer);
            0
        }
        Operation::Claim => claim(ledger, s),
        Operation::Accept => accept(ledger, s.target, s.now, s.signer),
        Operation::Dispute => {
            close_receipt(ledger, s.target, ReceiptState::Disputed, s.now, s.signer);
            0
        }
        Operation::Sweep => sweep(ledger, s.amount, s.now),
        Operation::Freeze => freeze(ledger, s),
        Operation::Caps => caps(ledger, s),
        Operation::Close => close_wallet(ledger, s),
    };
    // "Last clock becomes now".
    ledger.clock = s.now;
    // "all but sweep add one journal row, with the record's fields, now as
    // settled at, and the answer word". The operation is the record's byte: of
    // an accept and a dispute alike 7 in the new form.
    if operation != Operation::Sweep {
        ledger.journal.add(Entry {
            signer: s.signer,
            nonce: s.nonce,
            operation: u64::from(s.op),
            target: s.target,
            amount: s.amount,
            settled_at: s.now,
            word,
            link: s.link,
        });
    }
    word
}

/// "In 1 to 3 a missing target wallet is made: zeros, per-transaction cap
/// 100,000,000, daily cap 1,000,000,000."
fn make_if_missing(ledger: &mut Ledger, id: u64) {
    if ledger.wallet(id).is_missing() {
        ledger.add_wallet(Wallet {
            id,
            balance: 0,
            locked: 0,
            frozen: Frozen::No,
            per_tx_cap: FIRST_PER_TX_CAP,
            daily_cap: FIRST_DAILY_CAP,
        });
    }
}

/// Changes the wallet with this id. A closed one too: what an escrow that ends
/// pays to it, or returns to it, is in its row, and it stays closed. Only lent
/// tables have such an escrow; who names a closed wallet itself is refused.
fn change(ledger: &mut Ledger, id: u64, how: impl FnOnce(&mut Wallet)) {
    if let Some(wallet) = ledger.wallet_mut(id).live_or_closed() {
        how(wallet);
    }
}

/// "Grant raises balance and granted total."
fn grant(ledger: &mut Ledger, s: &Submission) -> u64 {
    make_if_missing(ledger, s.target);
    change(ledger, s.target, |target| target.balance += s.amount);
    ledger.granted += s.amount;
    0
}

/// "Transfer moves balance."
fn transfer(ledger: &mut Ledger, s: &Submission) -> u64 {
    make_if_missing(ledger, s.target);
    change(ledger, s.signer, |sender| sender.balance -= s.amount);
    change(ledger, s.target, |target| target.balance += s.amount);
    0
}

/// "Open moves balance to locked; the word is the escrow number." Closed at
/// and closing signer "are 0 at opening".
fn open(ledger: &mut Ledger, s: &Submission) -> u64 {
    make_if_missing(ledger, s.target);
    change(ledger, s.signer, |sender| {
        sender.balance -= s.amount;
        sender.locked += s.amount;
    });
    ledger.escrows.add(Escrow {
        from: s.signer,
        to: s.target,
        amount: s.amount,
        deadline: s.until,
        state: EscrowState::Open,
        opened_at: s.now,
        closed_at: 0,
        closing_signer: 0,
    })
}

/// "Release takes locked from the sender and adds to the recipient's balance;
/// refund returns it"; of a sweep, "an escrow expires with its credits
/// returned". "Whatever closes takes now as closed at."
fn close_escrow(ledger: &mut Ledger, number: u64, state: EscrowState, now: u64, signer: u64) {
    let (from, to, amount) = match ledger.escrows.numbered_mut(number) {
        Some(escrow) => {
            escrow.state = state;
            escrow.closed_at = now;
            escrow.closing_signer = signer;
            (escrow.from, escrow.to, escrow.amount)
        }
        None => return,
    };
    change(ledger, from, |sender| sender.locked -= amount);
    let paid = if state == EscrowState::Released {
        to
    } else {
        from
    };
    change(ledger, paid, |wallet| wallet.balance += amount);
}

/// "Claim's word is the receipt number." Closed at, closing signer and release
/// code "start at 0".
fn claim(ledger: &mut Ledger, s: &Submission) -> u64 {
    ledger.receipts.add(Receipt {
        provider: s.signer,
        requester: s.target,
        link: s.link,
        deadline: s.until,
        auto_accept: s.has(AUTO_OR_FREEZE),
        state: ReceiptState::Pending,
        claimed_at: s.now,
        closed_at: 0,
        closing_signer: 0,
        release_code: 0,
        hash: s.hash,
    })
}

/// "Whatever closes takes now as closed at. A closing signer is the record's
/// signer; after a sweep it is 0."
fn close_receipt(ledger: &mut Ledger, number: u64, state: ReceiptState, now: u64, signer: u64) {
    if let Some(receipt) = ledger.receipts.numbered_mut(number) {
        receipt.state = state;
        receipt.closed_at = now;
        receipt.closing_signer = signer;
    }
}

/// "Accept closes the receipt; with a link to an escrow that is open and not
/// stale, it also releases it, and the word is that escrow, else 0. If a linked
/// release is impossible, release code 29 is stored and the receipt is still
/// accepted."
fn accept(ledger: &mut Ledger, number: u64, now: u64, signer: u64) -> u64 {
    close_receipt(ledger, number, ReceiptState::Accepted, now, signer);
    let link = match ledger.receipts.numbered(number) {
        Some(receipt) => receipt.link,
        None => 0,
    };
    if link == 0 {
        return 0;
    }
    let possible = match ledger.escrows.numbered(link) {
        Some(escrow) => escrow.open_and_not_stale(now),
        None => false,
    };
    if possible {
        close_escrow(ledger, link, EscrowState::Released, now, signer);
        return link;
    }
    if let Some(receipt) = ledger.receipts.numbered_mut(number) {
        receipt.release_code = RELEASE_IMPOSSIBLE;
    }
    0
}

/// "Freeze sets the wallet's frozen word, or the system's for target 0, to bit
/// 2."
fn freeze(ledger: &mut Ledger, s: &Submission) -> u64 {
    let set = s.has(AUTO_OR_FREEZE);
    if s.target == 0 {
        ledger.system_frozen = set;
    } else {
        let frozen = if set { Frozen::Yes } else { Frozen::No };
        change(ledger, s.target, |wallet| wallet.frozen = frozen);
    }
    0
}

/// "Caps sets both caps."
fn caps(ledger: &mut Ledger, s: &Submission) -> u64 {
    change(ledger, s.target, |wallet| {
        wallet.per_tx_cap = s.amount;
        wallet.daily_cap = s.link;
    });
    0
}

/// Of request 6/13: "closes a departed crew's wallet ... The frozen word becomes
/// 2". Nothing else of the row changes, and it stays written.
fn close_wallet(ledger: &mut Ledger, s: &Submission) -> u64 {
    change(ledger, s.target, |wallet| wallet.frozen = Frozen::Closed);
    0
}

/// The row numbers, in row order, of the rows that are due.
fn due<R>(rows: &[R], is_due: impl Fn(&R) -> bool) -> Vec<u64> {
    (1..)
        .zip(rows)
        .filter(|(_, row)| is_due(row))
        .map(|(number, _)| number)
        .collect()
}

/// "Sweep closes due rows until its limit: pending receipts with acceptance
/// deadline < now in row order first, then open stale escrows in row order. An
/// auto-accept receipt is accepted, trying release as above; any other
/// expires. An escrow expires with its credits returned. The word counts
/// receipts closed plus escrows expired".
fn sweep(ledger: &mut Ledger, limit: u64, now: u64) -> u64 {
    let mut closed = 0;
    let receipts = due(&ledger.receipts.rows, |receipt| {
        receipt.state == ReceiptState::Pending && receipt.deadline < now
    });
    for number in receipts {
        if closed == limit {
            return closed;
        }
        let auto_accept = match ledger.receipts.numbered(number) {
            Some(receipt) => receipt.auto_accept,
            None => false,
        };
        if auto_accept {
            accept(ledger, number, now, 0);
        } else {
            close_receipt(ledger, number, ReceiptState::Expired, now, 0);
        }
        closed += 1;
    }
    let escrows = due(&ledger.escrows.rows, |escrow| escrow.open_and_stale(now));
    for number in escrows {
        if closed == limit {
            return closed;
        }
        close_escrow(ledger, number, EscrowState::Expired, now, 0);
        closed += 1;
    }
    closed
}
