//! "A ledger is sound if: ..."

use std::collections::HashMap;

use crate::rows::{Entry, Escrow, EscrowState, Receipt};
use crate::tables::{decode, Ledger, Tables};
use crate::{LAST_TIME, MOST_AMOUNT, MOST_GRANTED};

/// The decoded ledger if it is sound. Decoding already refuses "flags 0 or 1;
/// counts within their tables; written states 1 to 4", and a wallet's frozen
/// word above 2; the rest is here.
pub fn sound_ledger(tables: &Tables<'_>) -> Option<Ledger> {
    decode(tables).filter(is_sound)
}

fn is_sound(ledger: &Ledger) -> bool {
    ledger.edition == 1
        && ledger.clock <= LAST_TIME
        && wallet_ids_sound(ledger)
        && ledger.escrows.rows.iter().all(|e| escrow_sound(ledger, e))
        && ledger
            .receipts
            .rows
            .iter()
            .all(|r| receipt_sound(ledger, r))
        && ledger.journal.rows.iter().all(entry_sound)
        && locked_sound(ledger)
        && total_sound(ledger)
}

/// "wallet ids nonzero and distinct": equal ids would share one place.
fn wallet_ids_sound(ledger: &Ledger) -> bool {
    !ledger.wallet_places.contains_key(&0)
        && ledger.wallet_places.len() == ledger.wallets.rows.len()
}

/// "all times in written rows, deadlines too, at most 2^48 − 1".
fn times_sound(times: &[u64]) -> bool {
    times.iter().all(|&time| time <= LAST_TIME)
}

/// "1 to 10^15".
fn amount_sound(amount: u64) -> bool {
    (1..=MOST_AMOUNT).contains(&amount)
}

/// "each escrow names two different written wallets and an amount of 1 to
/// 10^15". A closed wallet is a written one.
fn escrow_sound(ledger: &Ledger, escrow: &Escrow) -> bool {
    times_sound(&[escrow.deadline, escrow.opened_at, escrow.closed_at])
        && escrow.from != escrow.to
        && !ledger.wallet(escrow.from).is_missing()
        && !ledger.wallet(escrow.to).is_missing()
        && amount_sound(escrow.amount)
}

/// "each receipt's link is 0 or a written escrow with from = requester and
/// to = provider".
fn receipt_sound(ledger: &Ledger, receipt: &Receipt) -> bool {
    let link_sound = receipt.link == 0
        || match ledger.escrows.numbered(receipt.link) {
            Some(escrow) => escrow.from == receipt.requester && escrow.to == receipt.provider,
            None => false,
        };
    times_sound(&[receipt.deadline, receipt.claimed_at, receipt.closed_at]) && link_sound
}

/// "journal amounts of operations 2 and 3 are 1 to 10^15".
fn entry_sound(entry: &Entry) -> bool {
    times_sound(&[entry.settled_at])
        && (!matches!(entry.operation, 2 | 3) || amount_sound(entry.amount))
}

/// "each wallet's locked is the sum of its open escrows".
fn locked_sound(ledger: &Ledger) -> bool {
    let mut open_sums: HashMap<u64, u128> = HashMap::new();
    for escrow in &ledger.escrows.rows {
        if escrow.state == EscrowState::Open {
            *open_sums.entry(escrow.from).or_insert(0) += u128::from(escrow.amount);
        }
    }
    ledger.wallets.rows.iter().all(|wallet| {
        let sum = open_sums.get(&wallet.id).copied().unwrap_or(0);
        u128::from(wallet.locked) == sum
    })
}

/// "balances and locked together equal the granted total, which is at most
/// 10^18".
fn total_sound(ledger: &Ledger) -> bool {
    let held: u128 = ledger
        .wallets
        .rows
        .iter()
        .map(|wallet| u128::from(wallet.balance) + u128::from(wallet.locked))
        .sum();
    held == u128::from(ledger.granted) && ledger.granted <= MOST_GRANTED
}
