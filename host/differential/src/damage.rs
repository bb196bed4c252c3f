//! Changes of the tables: other lengths, words by chance, and the small ones that break a clause.

use crate::dice::Dice;
use crate::step::{LAST_TIME, MOST_GRANTED};
use crate::twin::World;

/// The most rows of each table.
pub(crate) const MOST_ROWS: [usize; 5] = [1, 1_024, 4_096, 4_096, 8_192];

/// Gives one table another length, which may be right all the same.
pub fn lengthen(world: &mut World, dice: &mut Dice) {
    let which = dice.index(5);
    let words = crate::twin::ROW_WORDS[which];
    let table = match which {
        0 => &mut world.header,
        1 => &mut world.wallets,
        2 => &mut world.escrows,
        3 => &mut world.receipts,
        _ => &mut world.journal,
    };
    let length = match dice.below(9) {
        0 => 0,
        1 => table.len() - 1,
        2 => table.len() + 1,
        3 => table.len() + words,
        4 => table.len() - words,
        5 => words - 1,
        6 if dice.once_in(8) => MOST_ROWS[which] * words,
        7 if dice.once_in(8) => MOST_ROWS[which] * words + words,
        _ => dice.index(4 * words),
    };
    table.resize(length, dice.word());
}

/// Overwrites some words, anywhere in the tables.
pub fn scatter(world: &mut World, dice: &mut Dice) {
    for _ in 0..dice.between(1, 4) {
        let table = match dice.below(6) {
            0 => &mut world.header,
            1 | 2 => &mut world.wallets,
            3 => &mut world.escrows,
            4 => &mut world.receipts,
            _ => &mut world.journal,
        };
        let place = dice.index(table.len());
        table[place] = if dice.once_in(3) {
            dice.below(6)
        } else {
            dice.edge()
        };
    }
}

pub(crate) fn put(table: &mut [u64], place: usize, word: u64) -> bool {
    table[place] = word;
    true
}

pub(crate) fn put_at(
    table: &mut [u64],
    words: usize,
    row: Option<usize>,
    column: usize,
    word: u64,
) -> bool {
    row.map_or(false, |row| put(table, row * words + column, word))
}

pub(crate) fn raise_at(table: &mut [u64], words: usize, row: Option<usize>, column: usize) -> bool {
    row.map_or(false, |row| {
        put(
            table,
            row * words + column,
            table[row * words + column].wrapping_add(1),
        )
    })
}

pub(crate) fn lower_at(table: &mut [u64], words: usize, row: Option<usize>, column: usize) -> bool {
    row.map_or(false, |row| {
        put(
            table,
            row * words + column,
            table[row * words + column].wrapping_sub(1),
        )
    })
}

pub(crate) fn count(world: &mut World, dice: &mut Dice, place: usize, rows: usize) -> bool {
    put(
        &mut world.header,
        place,
        dice.pick(&[rows as u64 + 1, u64::MAX, 1 << 32]),
    )
}

/// Raises the granted total, and a balance with it.
pub(crate) fn granted(world: &mut World, total: u64) -> bool {
    world.header[4] > 0 && {
        world.wallets[1] += total - world.header[3];
        put(&mut world.header, 3, total)
    }
}

pub(crate) fn late(dice: &mut Dice) -> u64 {
    dice.pick(&[LAST_TIME + 1, LAST_TIME + 2, u64::MAX])
}

pub(crate) fn chosen(count: u64, dice: &mut Dice) -> Option<usize> {
    if count == 0 {
        None
    } else {
        Some(dice.below(count) as usize)
    }
}

pub(crate) fn wallet(world: &World, dice: &mut Dice) -> Option<usize> {
    chosen(world.header[4], dice)
}

pub(crate) fn escrow(world: &World, dice: &mut Dice) -> Option<usize> {
    chosen(world.header[5], dice)
}

pub(crate) fn receipt(world: &World, dice: &mut Dice) -> Option<usize> {
    chosen(world.header[6], dice)
}

pub(crate) fn closed_escrow(world: &World, dice: &mut Dice) -> Option<usize> {
    escrow(world, dice).filter(|row| world.escrows[row * 8 + 4] != 1)
}

pub(crate) fn linked_receipt(world: &World, dice: &mut Dice) -> Option<usize> {
    receipt(world, dice).filter(|row| world.receipts[row * 14 + 2] != 0)
}

pub(crate) fn stranger(world: &World) -> u64 {
    let ids: Vec<u64> = world.wallets.chunks(6).map(|row| row[0]).collect();
    (1..).find(|id| !ids.contains(id)).unwrap_or(0)
}

/// Gives an escrow another party, and the receipts that are linked to it too.
pub(crate) fn party(world: &mut World, row: Option<usize>, column: usize, id: u64) -> bool {
    if let Some(row) = row {
        let written = world.header[6] as usize;
        for receipt in world.receipts.chunks_mut(14).take(written) {
            if receipt[2] == row as u64 + 1 {
                receipt[1 - column] = id;
            }
        }
    }
    put_at(&mut world.escrows, 8, row, column, id)
}

/// A wallet that no escrow names.
pub(crate) fn idle_wallet(world: &World, dice: &mut Dice) -> Option<usize> {
    wallet(world, dice).filter(|row| {
        let id = world.wallets[row * 6];
        let mut escrows = world.escrows.chunks(8).take(world.header[5] as usize);
        !escrows.any(|escrow| escrow[0] == id || escrow[1] == id)
    })
}

/// Gives an idle wallet the id of the next one, and the same locked credits, so that both have what
/// the open escrows of that id come to.
pub(crate) fn doubled(world: &mut World, row: usize) -> bool {
    let next = (row + 1) % world.header[4] as usize;
    let (id, locked) = (world.wallets[next * 6], world.wallets[next * 6 + 2]);
    let granted = world.header[3] + locked;
    next != row && granted <= MOST_GRANTED && {
        world.wallets[row * 6] = id;
        world.wallets[row * 6 + 2] = locked;
        put(&mut world.header, 3, granted)
    }
}
