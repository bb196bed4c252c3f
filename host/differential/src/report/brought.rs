//! The report that recordings are added to.

use milebeacon::ffi;
use second::{GRID_COLUMNS, GRID_ROWS};

use super::gains::{Gain, NO_LONGER};
use super::twice::{Named, Twice};
use crate::dice::Dice;

const MALFORMED: usize = 3;

/// How much room a figure has.
#[derive(Clone, Copy, Debug, PartialEq, Eq)]
pub enum Room {
    /// With a certain entry it becomes just 2^64 - 1.
    Just,
    /// With that entry it would be one more.
    Short,
}

/// Figures that are brought along so full that one entry of the recordings fills them.
#[derive(Clone, Debug, PartialEq, Eq)]
pub struct Full {
    /// Which, by their places in [`FIGURES`](super::gains::FIGURES), and how full each is with that
    /// entry. Of the cells it is the one that the entry is counted in.
    pub figures: Vec<(usize, Room)>,
    /// Which entry, counted from 0 and around, of those that raise all these figures.
    pub turn: usize,
}

/// A report that is brought along.
#[derive(Clone, Debug, PartialEq, Eq)]
pub struct Brought {
    /// What it has named.
    pub named: Named,
    /// Decides on its numbers; 0 for all zeros.
    pub seed: u64,
    /// What is nearly full.
    pub full: Vec<Full>,
}

impl Brought {
    /// Over no recording.
    pub const BLANK: Brought = Brought {
        named: [0; 3],
        seed: 0,
        full: Vec::new(),
    };

    /// The report, for recordings whose entries add this.
    pub fn report(&self, gains: &[&Gain]) -> Twice {
        let mut grid: ffi::Grid = [[0; GRID_COLUMNS]; GRID_ROWS];
        let mut credits = [0; 5];
        if self.seed != 0 {
            let dice = &mut Dice::new(self.seed);
            let numbers = credits.iter_mut().chain(grid.iter_mut().flatten());
            // with room for any recording
            numbers.for_each(|number| *number = dice.edge() >> 1);
            // but in the row that nothing is counted in
            grid[NO_LONGER].fill_with(|| dice.edge().max(1));
            grid[NO_LONGER][MALFORMED] = u64::MAX;
        }
        for full in &self.full {
            if let Some(entry) = full.entry(gains) {
                let through = &gains[..=entry];
                let (row, column) = gains[entry].cell;
                for &(figure, room) in &full.figures {
                    let more = through.iter().map(|gain| gain.of(figure, (row, column)));
                    let number = u64::MAX - more.sum::<u64>() + u64::from(room == Room::Short);
                    match credits.get_mut(figure) {
                        Some(sum) => *sum = number,
                        None => grid[row][column] = number,
                    }
                }
            }
        }
        Twice::new(grid, credits, self.named)
    }
}

impl Full {
    /// The places of the entries that raise all the figures, counted from 0.
    pub fn entries<'a>(&'a self, gains: &'a [&Gain]) -> impl Iterator<Item = usize> + 'a {
        let raises_all = |gain: &Gain| {
            let mut figures = self.figures.iter();
            figures.all(|&(figure, _)| gain.raises(figure))
        };
        let entries = gains.iter().enumerate();
        entries
            .filter(move |(_, gain)| raises_all(gain))
            .map(|(place, _)| place)
    }

    fn entry(&self, gains: &[&Gain]) -> Option<usize> {
        let turn = self.turn.checked_rem(self.entries(gains).count())?;
        self.entries(gains).nth(turn)
    }
}
