//! Ledgers that are broken in exactly one clause of what "sound" means, and ledgers at the limit of
//! a clause, which are sound still.

use crate::damage::{
    chosen, closed_escrow, count, doubled, escrow, granted, idle_wallet, late, linked_receipt,
    lower_at, party, put, put_at, raise_at, receipt, stranger, wallet,
};
use crate::dice::Dice;
use crate::step::{LAST_TIME, MOST_AMOUNT, MOST_GRANTED};
use crate::twin::World;

/// A change of a sound ledger. It answers whether the ledger had the rows for it.
pub type Change = fn(&mut World, &mut Dice) -> bool;

/// Changes that break one clause and no other, by the clause.
pub const BREAKS: &[(&str, Change)] = &[
    ("edition 1", |w, dice| {
        put(&mut w.header, 0, dice.pick(&[0, 2, u64::MAX]))
    }),
    ("system frozen 0 or 1", |w, dice| {
        put(&mut w.header, 1, dice.pick(&[2, u64::MAX]))
    }),
    ("wallet frozen 0 to 2", |w, dice| {
        let row = wallet(w, dice);
        let word = dice.pick(&[3, 3, 4, 256, 258, (1 << 32) + 2, u64::MAX]);
        put_at(&mut w.wallets, 6, row, 3, word)
    }),
    ("auto-accept 0 or 1", |w, dice| {
        let row = receipt(w, dice);
        put_at(&mut w.receipts, 14, row, 4, dice.pick(&[2, u64::MAX]))
    }),
    ("wallets written within their table", |w, dice| {
        count(w, dice, 4, w.wallets.len() / 6)
    }),
    ("escrows written within their table", |w, dice| {
        count(w, dice, 5, w.escrows.len() / 8)
    }),
    ("receipts written within their table", |w, dice| {
        count(w, dice, 6, w.receipts.len() / 14)
    }),
    ("journal rows written within their table", |w, dice| {
        count(w, dice, 7, w.journal.len() / 8)
    }),
    ("clock at most 2^48 - 1", |w, dice| {
        put(&mut w.header, 2, late(dice))
    }),
    ("escrow times at most 2^48 - 1", |w, dice| {
        let row = escrow(w, dice);
        put_at(&mut w.escrows, 8, row, dice.pick(&[3, 5, 6]), late(dice))
    }),
    ("receipt times at most 2^48 - 1", |w, dice| {
        let row = receipt(w, dice);
        put_at(&mut w.receipts, 14, row, dice.pick(&[3, 6, 7]), late(dice))
    }),
    ("journal times at most 2^48 - 1", |w, dice| {
        let row = chosen(w.header[7], dice);
        put_at(&mut w.journal, 8, row, 5, late(dice))
    }),
    ("wallet ids nonzero", |w, dice| {
        let row = idle_wallet(w, dice);
        put_at(&mut w.wallets, 6, row, 0, 0)
    }),
    ("wallet ids distinct", |w, dice| {
        idle_wallet(w, dice).map_or(false, |row| doubled(w, row))
    }),
    ("wallet ids distinct, closed ones too", |w, dice| {
        let row = idle_wallet(w, dice).filter(|&row| doubled(w, row));
        let next = row.map(|row| (row + 1) % w.header[4] as usize);
        let (closed, other) = dice.pick(&[(row, next), (next, row)]);
        put_at(&mut w.wallets, 6, closed, 3, 2) && put_at(&mut w.wallets, 6, other, 3, 0)
    }),
    ("escrow states 1 to 4", |w, dice| {
        let row = closed_escrow(w, dice);
        put_at(&mut w.escrows, 8, row, 4, dice.pick(&[0, 5, u64::MAX]))
    }),
    ("receipt states 1 to 4", |w, dice| {
        let row = receipt(w, dice);
        put_at(&mut w.receipts, 14, row, 5, dice.pick(&[0, 5, u64::MAX]))
    }),
    ("escrow from a written wallet", |w, dice| {
        let row = closed_escrow(w, dice);
        let stranger = stranger(w);
        party(w, row, 0, stranger)
    }),
    ("escrow to a written wallet", |w, dice| {
        let row = escrow(w, dice);
        let stranger = stranger(w);
        party(w, row, 1, stranger)
    }),
    ("escrow between different wallets", |w, dice| {
        let row = escrow(w, dice);
        let from = row.map_or(0, |row| w.escrows[row * 8]);
        party(w, row, 1, from)
    }),
    ("escrow amount 1 to 10^15", |w, dice| {
        let row = closed_escrow(w, dice);
        put_at(
            &mut w.escrows,
            8,
            row,
            2,
            dice.pick(&[0, MOST_AMOUNT + 1, u64::MAX]),
        )
    }),
    ("receipt linked to a written escrow", |w, dice| {
        let row = receipt(w, dice);
        let beyond = [w.header[5] + 1, u64::MAX, (w.escrows.len() / 8) as u64 + 1];
        put_at(&mut w.receipts, 14, row, 2, dice.pick(&beyond))
    }),
    ("receipt's requester the escrow's from", |w, dice| {
        let row = linked_receipt(w, dice);
        raise_at(&mut w.receipts, 14, row, 1)
    }),
    ("receipt's provider the escrow's to", |w, dice| {
        let row = linked_receipt(w, dice);
        raise_at(&mut w.receipts, 14, row, 0)
    }),
    ("journal amounts of 2 and 3 from 1 to 10^15", |w, dice| {
        let row = chosen(w.header[7], dice);
        put_at(
            &mut w.journal,
            8,
            row,
            4,
            dice.pick(&[0, MOST_AMOUNT + 1, u64::MAX]),
        ) && put_at(&mut w.journal, 8, row, 2, dice.pick(&[2, 3]))
    }),
    ("locked the sum of open escrows", |w, dice| {
        let row = wallet(w, dice).filter(|row| w.wallets[row * 6 + 1] > 0);
        lower_at(&mut w.wallets, 6, row, 1) && raise_at(&mut w.wallets, 6, row, 2)
    }),
    ("locked by its own wallet", |w, dice| {
        let (one, other) = (wallet(w, dice), wallet(w, dice));
        let one = one.filter(|row| other != Some(*row) && w.wallets[row * 6 + 2] > 0);
        lower_at(&mut w.wallets, 6, one, 2) && raise_at(&mut w.wallets, 6, other, 2)
    }),
    ("balances and locked the granted total", |w, dice| {
        let row = wallet(w, dice);
        match dice.below(3) {
            0 => raise_at(&mut w.wallets, 6, row, 1),
            1 => raise_at(&mut w.header, 8, Some(0), 3),
            _ => lower_at(&mut w.header, 8, Some(0), 3),
        }
    }),
    ("sums that do not wrap", |w, _| {
        let half = 1 << 63;
        w.header[4] >= 2 && w.wallets[1] < half && w.wallets[7] < half && {
            w.wallets[1] += half;
            w.wallets[7] += half;
            true
        }
    }),
    ("granted total at most 10^18", |w, dice| {
        let total = MOST_GRANTED + dice.pick(&[1, 1_000]);
        granted(w, total)
    }),
];

/// Changes after which the ledger is sound still.
pub const LIMITS: &[(&str, Change)] = &[
    ("last clock", |w, _| put(&mut w.header, 2, LAST_TIME)),
    ("last moment in an escrow", |w, dice| {
        let row = escrow(w, dice);
        put_at(&mut w.escrows, 8, row, dice.pick(&[3, 5, 6]), LAST_TIME)
    }),
    ("last moment in a receipt", |w, dice| {
        let row = receipt(w, dice);
        put_at(&mut w.receipts, 14, row, dice.pick(&[3, 6, 7]), LAST_TIME)
    }),
    ("last moment in the journal", |w, dice| {
        let row = chosen(w.header[7], dice);
        put_at(&mut w.journal, 8, row, 5, LAST_TIME)
    }),
    ("largest amount of a closed escrow", |w, dice| {
        let row = closed_escrow(w, dice);
        put_at(&mut w.escrows, 8, row, 2, dice.pick(&[1, MOST_AMOUNT]))
    }),
    ("granted total 10^18", |w, _| granted(w, MOST_GRANTED)),
    ("a closed wallet, whatever it has", |w, dice| {
        let row = wallet(w, dice);
        put_at(&mut w.wallets, 6, row, 3, 2)
    }),
    ("wallets that are all closed", |w, _| {
        let written = w.header[4] as usize;
        (0..written).all(|row| put_at(&mut w.wallets, 6, Some(row), 3, 2)) && written > 0
    }),
    ("any caps", |w, dice| {
        let row = wallet(w, dice);
        put_at(&mut w.wallets, 6, row, dice.pick(&[4, 5]), dice.edge())
    }),
    ("any closing signer, release code and hash", |w, dice| {
        let row = receipt(w, dice);
        put_at(
            &mut w.receipts,
            14,
            row,
            dice.pick(&[8, 9, 10, 11, 12, 13]),
            dice.edge(),
        )
    }),
    (
        "any signer, nonce, target, word and link in the journal",
        |w, dice| {
            let row = chosen(w.header[7], dice);
            put_at(
                &mut w.journal,
                8,
                row,
                dice.pick(&[0, 1, 3, 6, 7]),
                dice.edge(),
            )
        },
    ),
    ("a journal that is shorter than it was", |w, dice| {
        let fewer = dice.below(w.header[7] + 1);
        put(&mut w.header, 7, fewer)
    }),
    ("receipts that are fewer than they were", |w, dice| {
        let fewer = dice.below(w.header[6] + 1);
        put(&mut w.header, 6, fewer)
    }),
];
