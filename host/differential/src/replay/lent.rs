//! The tables that a recording is replayed on.

use milebeacon::{Sizes, Tables};

use crate::damage::MOST_ROWS;
use crate::dice::Dice;
use crate::start::{small_sizes, sound, Filled};
use crate::twin::{slices_mut, World, ROW_WORDS};

/// Which tables.
#[derive(Clone, Copy, Debug, PartialEq, Eq)]
pub enum On {
    /// Those of the recording's sizes, of words by chance, the header too.
    Words,
    /// Those of the recording's sizes with a sound ledger in them.
    InUse,
    /// Small ones of sizes by chance.
    OtherSizes,
    /// Those of words by chance with one table, counted from 0, of another length.
    Length(usize, Length),
}

/// Another length of a table.
#[derive(Clone, Copy, Debug, PartialEq, Eq)]
pub enum Length {
    /// No words.
    Empty,
    /// One word less.
    WordLess,
    /// One word more.
    WordMore,
    /// One row more than it may have.
    TooManyRows,
    /// One row less, which is right of a table of more rows than one.
    RowLess,
    /// One row more, which is right of a table that may have it.
    RowMore,
}

/// All of them; the first four are always wrong.
pub const LENGTHS: [Length; 6] = [
    Length::Empty,
    Length::WordLess,
    Length::WordMore,
    Length::TooManyRows,
    Length::RowLess,
    Length::RowMore,
];

impl Length {
    /// Whether every table of this length is wrong.
    pub fn is_wrong(self) -> bool {
        !matches!(self, Length::RowLess | Length::RowMore)
    }

    fn of(self, table: usize, length: usize) -> usize {
        let words = ROW_WORDS[table];
        match self {
            Length::Empty => 0,
            Length::WordLess => length - 1,
            Length::WordMore => length + 1,
            Length::TooManyRows => (MOST_ROWS[table] + 1) * words,
            Length::RowLess => length - words,
            Length::RowMore => length + words,
        }
    }
}

impl On {
    /// The tables, for a recording that was made on tables of these sizes.
    pub fn tables(self, sizes: Sizes, dice: &mut Dice) -> World {
        match self {
            On::Words => words(sizes, dice),
            On::InUse => {
                let filled = Filled::roll(dice, sizes);
                sound(dice, sizes, filled)
            }
            On::OtherSizes => {
                let other = small_sizes(dice);
                words(other, dice)
            }
            On::Length(table, length) => {
                let mut world = words(sizes, dice);
                if let Some(changed) = slices_mut(&mut world).into_iter().nth(table) {
                    changed.resize(length.of(table, changed.len()), dice.word());
                }
                world
            }
        }
    }
}

/// Any words but zeros.
fn words(sizes: Sizes, dice: &mut Dice) -> World {
    let mut world = Tables::zeros(sizes);
    for table in slices_mut(&mut world) {
        table.fill_with(|| dice.word().max(1));
    }
    world
}

/// Each table of each length, one after another.
pub fn another_length(turn: u64) -> (usize, Length) {
    let lengths = LENGTHS.len() as u64;
    let (table, length) = (turn % 5, turn / 5 % lengths);
    (table as usize, LENGTHS[length as usize])
}
