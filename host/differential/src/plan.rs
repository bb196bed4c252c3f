//! A run of a given length from a given seed.

use std::fmt;

use milebeacon::Sizes;

use crate::clauses::{Change, BREAKS, LIMITS};
use crate::codec;
use crate::convert;
use crate::damage::{lengthen, scatter};
use crate::dice::Dice;
use crate::history::History;
use crate::lookups;
use crate::mix::Mix;
use crate::replay;
use crate::report;
use crate::shrink::shrink;
use crate::start::{small_sizes, sound, Filled};
use crate::step::Step;
use crate::tally::Tally;
use crate::twin::{Difference, Twin, World};

/// A run.
#[derive(Clone, Copy, Debug)]
pub struct Plan {
    /// Which histories.
    pub mix: Mix,
    /// Decides all that is left to chance.
    pub seed: u64,
    /// How many submissions at least.
    pub submissions: u64,
}

impl fmt::Display for Plan {
    fn fmt(&self, f: &mut fmt::Formatter<'_>) -> fmt::Result {
        write!(f, "mix {}, seed {}", self.mix, self.seed)
    }
}

/// The short run.
pub const SHORT: Plan = Plan {
    mix: Mix::Limits,
    seed: 1,
    submissions: 200_000,
};

/// A difference, and how to see it again.
#[derive(Debug)]
pub struct Failure(pub String);

impl fmt::Display for Failure {
    fn fmt(&self, f: &mut fmt::Formatter<'_>) -> fmt::Result {
        f.write_str(&self.0)
    }
}

/// Runs until the submissions have been compared, and stops at the first difference.
pub fn run(plan: Plan, report: &mut dyn FnMut(&Tally)) -> Result<Tally, Failure> {
    let mut tally = Tally::default();
    let mut round = 0;
    while tally.submissions() < plan.submissions {
        one_round(plan, round, &mut tally)
            .map_err(|Failure(story)| Failure(format!("{plan}, round {round}: {story}")))?;
        round += 1;
        report(&tally);
    }
    Ok(tally)
}

/// Everything once: histories, lent ledgers, broken ones, wrong lengths, codec, statuses, replays,
/// reports, conversions.
fn one_round(plan: Plan, round: u64, tally: &mut Tally) -> Result<(), Failure> {
    let seed = plan.seed.wrapping_mul(0x1_0000_0001).wrapping_add(round);
    let dice = &mut Dice::new(seed);
    let histories = plan.mix.histories(round, dice);
    for history in &histories {
        play(history, tally)?;
    }
    let (broken, kept) = (Outcome::Damaged, Outcome::Sound);
    if round % 64 == 2 {
        // one clause of largest tables; not every ledger has the rows for it
        let ((name, change), outcome) = match dice.below(3) {
            0 => (dice.pick(LIMITS), kept),
            _ => (dice.pick(BREAKS), broken),
        };
        let mut world = lent(dice, Sizes::LARGEST);
        if change(&mut world, dice) {
            judged(world, dice, tally, outcome)
                .map_err(|d| Failure(format!("largest tables, {name}: {d}")))?;
        }
    }
    for (name, change) in BREAKS {
        changed(dice, tally, *change, broken).map_err(|d| Failure(format!("not {name}: {d}")))?;
    }
    for (name, change) in LIMITS {
        changed(dice, tally, *change, kept).map_err(|d| Failure(format!("{name}: {d}")))?;
    }
    for _ in 0..20 {
        anything(dice, tally, scatter).map_err(|d| Failure(format!("words by chance: {d}")))?;
        anything(dice, tally, lengthen).map_err(|d| Failure(format!("another length: {d}")))?;
        codec::round(dice, tally).map_err(|d| Failure(format!("codec: {d}")))?;
    }
    codec::statuses(dice, tally).map_err(|d| Failure(d.to_string()))?;
    replay::rounds::round(&histories, round, dice.word(), tally).map_err(Failure)?;
    report::rounds::round(&histories, round, dice.word(), tally).map_err(Failure)?;
    convert::rounds::round(&histories, round, dice.word(), tally).map_err(Failure)
}

fn play(history: &History, tally: &mut Tally) -> Result<(), Failure> {
    match history.play(tally) {
        Ok(_) => Ok(()),
        Err(found) => Err(Failure(format!(
            "a history\n{}",
            shrink(history, found).story()
        ))),
    }
}

/// What a change of a sound ledger leaves.
#[derive(Clone, Copy, PartialEq, Eq)]
enum Outcome {
    Sound,
    Damaged,
}

/// A sound ledger of these sizes, by chance.
fn lent(dice: &mut Dice, sizes: Sizes) -> World {
    let filled = Filled::roll(dice, sizes);
    sound(dice, sizes, filled)
}

/// The same of small sizes.
fn small(dice: &mut Dice) -> World {
    let sizes = small_sizes(dice);
    lent(dice, sizes)
}

/// Submits a step, then bytes that are no record: the answer to those says whether both programs
/// take the ledger for sound.
fn asked(twin: &mut Twin, dice: &mut Dice, tally: &mut Tally) -> Result<u64, Difference> {
    let last = Vec::new();
    let record = Step::roll(dice, 1).record(twin.world(), &last);
    twin.submit(&record, tally)?;
    twin.submit(&record[..record.len().min(5)], tally)
        .map(|(number, _)| number)
}

/// A sound ledger with a change of known effect.
fn changed(
    dice: &mut Dice,
    tally: &mut Tally,
    change: Change,
    outcome: Outcome,
) -> Result<(), Difference> {
    let mut world = small(dice);
    let mut tries = 0;
    while !change(&mut world, dice) {
        world = small(dice);
        tries += 1;
        if tries > 1_000 {
            return Err(Difference(
                "no ledger has the rows for this change".to_owned(),
            ));
        }
    }
    judged(world, dice, tally, outcome)
}

/// Both programs must take the ledger for what it is.
fn judged(
    world: World,
    dice: &mut Dice,
    tally: &mut Tally,
    outcome: Outcome,
) -> Result<(), Difference> {
    lookups::all(&world, dice, tally)?;
    let number = asked(&mut Twin::new(world), dice, tally)?;
    let expected = if outcome == Outcome::Damaged { 2 } else { 3 };
    if number == expected {
        Ok(())
    } else {
        Err(Difference(format!(
            "both programs answer {number} where {expected} was meant"
        )))
    }
}

/// A sound ledger with a change of unknown effect; then a fresh start, and one more submission.
fn anything(
    dice: &mut Dice,
    tally: &mut Tally,
    change: fn(&mut World, &mut Dice),
) -> Result<(), Difference> {
    let mut world = small(dice);
    change(&mut world, dice);
    let mut twin = Twin::new(world);
    lookups::all(twin.world(), dice, tally)?;
    asked(&mut twin, dice, tally)?;
    twin.fresh(tally)?;
    asked(&mut twin, dice, tally).map(drop)
}
