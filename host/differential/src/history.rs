//! Whole histories: a start and the steps taken from it.

use milebeacon::{ffi, Sizes};

use crate::dice::Dice;
use crate::lookups;
use crate::parties::departure;
use crate::replies::claimed;
use crate::start::{departed, noise, roomy_sizes, small_sizes, sound, Filled};
use crate::step::Step;
use crate::tally::Tally;
use crate::twin::{Difference, Twin, World};

/// What a history begins with.
#[derive(Clone, Copy, Debug, PartialEq, Eq)]
pub enum Begin {
    /// Tables of noise, started afresh.
    Fresh,
    /// A sound ledger that is lent as it stands.
    Lent,
    /// The same with about half of each table written.
    HalfFull,
    /// The same with every table full or one row short of it.
    NearlyFull,
    /// One with many wallets closed.
    Departed,
}

/// A history.
#[derive(Clone, Debug, PartialEq, Eq)]
pub struct History {
    /// What it begins with.
    pub begin: Begin,
    /// How large the tables are.
    pub sizes: Sizes,
    /// Decides the words that the tables begin with.
    pub seed: u64,
    /// What is submitted.
    pub steps: Vec<Step>,
}

/// A difference, at the step with this place in the history.
#[derive(Clone, Debug)]
pub struct Found {
    /// Counted from 0; the number of steps if it was found after the last.
    pub step: usize,
    /// What was different.
    pub difference: Difference,
}

/// So many steps, and in place of one in so many a crew that leaves.
fn with_departures(
    dice: &mut Dice,
    length: usize,
    once_in: u64,
    step: impl Fn(&mut Dice) -> Step,
) -> Vec<Step> {
    let mut steps = Vec::with_capacity(length);
    while steps.len() < length {
        if dice.once_in(once_in) {
            steps.extend(departure(dice));
        } else {
            steps.push(step(dice));
        }
    }
    steps
}

impl History {
    /// A history of small tables by chance.
    pub fn roll(dice: &mut Dice, length: usize) -> History {
        let begins = [
            Begin::Fresh,
            Begin::Fresh,
            Begin::Fresh,
            Begin::Lent,
            Begin::Lent,
            Begin::NearlyFull,
        ];
        let begin = dice.pick(&begins);
        let sizes = small_sizes(dice);
        History::of(begin, sizes, dice, length)
    }

    /// A history of tables of these sizes.
    pub fn of(begin: Begin, sizes: Sizes, dice: &mut Dice, length: usize) -> History {
        let wild = dice.pick(&[0, 0, 1, 1, 2, 4]);
        let steps = with_departures(dice, length, 30, |dice| Step::roll(dice, wild));
        History {
            begin,
            sizes,
            seed: dice.word(),
            steps,
        }
    }

    /// The same of steps that mostly settle.
    pub fn settling(begin: Begin, sizes: Sizes, dice: &mut Dice, length: usize) -> History {
        let steps = with_departures(dice, length, 60, Step::settling);
        History {
            begin,
            sizes,
            seed: dice.word(),
            steps,
        }
    }

    /// A history in which most steps lead to a reply or are one, of either form, and one record in six
    /// is damaged.
    pub fn replies(dice: &mut Dice, length: usize) -> History {
        let sizes = match dice.below(4) {
            0 => small_sizes(dice),
            _ => roomy_sizes(dice),
        };
        let mut steps = claimed(dice);
        steps.extend(with_departures(dice, length, 60, Step::replying));
        History {
            begin: dice.pick(&[Begin::Fresh, Begin::Fresh, Begin::Fresh, Begin::Lent]),
            sizes,
            seed: dice.word(),
            steps,
        }
    }

    /// A history of small tables that is mostly about closed wallets.
    pub fn departures(dice: &mut Dice, length: usize) -> History {
        let begins = [
            Begin::Departed,
            Begin::Departed,
            Begin::Departed,
            Begin::Fresh,
        ];
        let begin = dice.pick(&begins);
        let sizes = small_sizes(dice);
        let steps = with_departures(dice, length, 12, Step::departed);
        History {
            begin,
            sizes,
            seed: dice.word(),
            steps,
        }
    }

    /// The tables before the first step.
    pub fn world(&self) -> World {
        let mut dice = Dice::new(self.seed);
        let dice = &mut dice;
        let filled = match self.begin {
            Begin::Fresh => return noise(dice, self.sizes),
            Begin::Lent => Filled::roll(dice, self.sizes),
            Begin::HalfFull => Filled::half(self.sizes),
            Begin::NearlyFull => Filled::nearly_full(dice, self.sizes),
            Begin::Departed => return departed(dice, self.sizes),
        };
        sound(dice, self.sizes, filled)
    }

    /// Plays it with both programs.
    pub fn play(&self, tally: &mut Tally) -> Result<Twin, Found> {
        let mut twin = Twin::new(self.world());
        let at = |step: usize| move |difference: Difference| Found { step, difference };
        if self.begin == Begin::Fresh {
            twin.fresh(tally).map_err(at(0))?;
        }
        let mut last = Vec::new();
        for (place, step) in self.steps.iter().enumerate() {
            let record = step.record(twin.world(), &last);
            twin.submit(&record, tally).map_err(at(place))?;
            last = record;
        }
        lookups::all(twin.world(), &mut Dice::new(self.seed), tally)
            .map_err(at(self.steps.len()))?;
        Ok(twin)
    }

    /// The records, one after another, each as both programs were given it. The core goes through the
    /// tables here: it answers whatever it is given, where a wrong second program may panic.
    pub fn records(&self) -> Vec<Vec<u8>> {
        let mut world = self.world();
        if self.begin == Begin::Fresh {
            ffi::fresh(world.as_mut());
        }
        let mut records: Vec<Vec<u8>> = Vec::new();
        for step in &self.steps {
            let record = step.record(&world, records.last().map_or(&[], Vec::as_slice));
            ffi::submit(world.as_mut(), &record);
            records.push(record);
        }
        records
    }
}
