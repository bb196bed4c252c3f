//! The conversions of one round of a run, and runs of nothing else.

use milebeacon::Sizes;

use super::noise;
use super::shrink::{shrink, story};
use super::{compare_recorded, counts::Conversions};
use crate::dice::Dice;
use crate::history::{Begin, History};
use crate::plan::Failure;
use crate::replay::lent::{another_length, On};
use crate::replay::recording::{By, Change};
use crate::replay::Replay;
use crate::report::days;
use crate::tally::Tally;

/// How many cuts, and how many recordings that are bytes by chance, there are in a round.
const CUTS: u64 = 3;
const NOISE: u64 = 6;
/// An entry that is cut is one of so many.
const BEFORE_A_CUT: usize = 8;

/// Records a history in which much is replied, and one of the round's, in the old form, and converts
/// what was recorded, as it is and changed. A difference is told in a small recording.
pub fn round(
    histories: &[History],
    round: u64,
    seed: u64,
    tally: &mut Tally,
) -> Result<(), String> {
    let dice = &mut Dice::new(seed);
    let length = dice.pick(&[20, 60]);
    let replied = History::replies(dice, length);
    recorded(&replied, &planned(round, dice), dice, tally)?;
    let place = round as usize % histories.len().max(1);
    if let Some(history) = histories.get(place).filter(|h| h.sizes != Sizes::LARGEST) {
        let mut history = history.clone();
        history.steps.truncate(dice.pick(&[5, 20, 40]));
        if !dice.once_in(4) {
            history.begin = Begin::Fresh;
        }
        damage(&mut history, dice);
        let planned = [(Change::Nothing, On::Words), (any(dice), On::InUse)];
        recorded(&history, &planned, dice, tally)?;
    }
    by_chance(dice, tally)
}

/// Bytes that nobody recorded.
fn by_chance(dice: &mut Dice, tally: &mut Tally) -> Result<(), String> {
    for _ in 0..NOISE {
        let seed = dice.word();
        noise::compare(seed, tally).map_err(|difference| {
            let bytes = noise::bytes(seed);
            format!("a conversion of bytes by chance, seed {seed}: {difference}\n{bytes:02X?}\n")
        })?;
    }
    Ok(())
}

/// Damages one step in four more, and gives one in eight other flags.
fn damage(history: &mut History, dice: &mut Dice) {
    for step in &mut history.steps {
        if dice.once_in(4) {
            step.damage = dice.below(16) as u8;
        }
        if dice.once_in(8) {
            step.flags = dice.below(9) as u8;
        }
    }
}

/// Records a history in the old form, and converts it with each of these changes.
fn recorded(
    history: &History,
    planned: &[(Change, On)],
    dice: &mut Dice,
    tally: &mut Tally,
) -> Result<(), String> {
    let replay = Replay {
        history: history.clone(),
        by: By::SecondInOldForm,
        change: Change::Nothing,
        place: 0,
        on: On::Words,
        seed: 0,
    };
    let entries = replay.entries().map_err(|d| d.to_string())?;
    for &(change, on) in planned {
        let places = match change {
            Change::Cut(_) => entries.len().min(BEFORE_A_CUT),
            _ => entries.len(),
        };
        let replay = Replay {
            change,
            place: dice.index(places.max(1)),
            on,
            seed: dice.word(),
            ..replay.clone()
        };
        if let Err(difference) = compare_recorded(&replay, &entries, tally) {
            return Err(story(&shrink(&replay, difference)));
        }
    }
    Ok(())
}

fn any(dice: &mut Dice) -> Change {
    dice.pick(&[
        Change::Record,
        Change::Record,
        Change::Number,
        Change::NumberAbove,
        Change::Word,
        Change::WordThenCut,
    ])
}

/// What is done in the round of this number.
fn planned(round: u64, dice: &mut Dice) -> Vec<(Change, On)> {
    let mut planned = vec![
        (Change::Nothing, On::Words),
        (any(dice), On::Words),
        (any(dice), On::InUse),
    ];
    match round % 4 {
        0 => planned.push((Change::Nothing, On::OtherSizes)),
        1 => planned.push((Change::Refusals, On::InUse)),
        2 => planned.push((Change::Empty, On::InUse)),
        _ => {
            let (table, length) = another_length(round / 4);
            planned.push((Change::Nothing, On::Length(table, length)));
        }
    }
    planned.extend((0..CUTS).map(|k| {
        let kept = (round * CUTS + k) % 116 + 1;
        (Change::Cut(kept as usize), On::Words)
    }));
    planned
}

/// Converts until so many recordings have been, and stops at the first difference.
pub fn run(
    seed: u64,
    recordings: u64,
    report: &mut dyn FnMut(&Conversions),
) -> Result<Conversions, Failure> {
    let mut tally = Tally::default();
    let mut number = 0;
    while tally.conversions.recordings() < recordings {
        let dice = &mut Dice::new(seed.wrapping_mul(0x1_0000_0001).wrapping_add(number));
        let histories = [
            History::roll(dice, 60),
            days::roll(dice),
            History::departures(dice, 40),
        ];
        round(&histories, number, dice.word(), &mut tally)
            .map_err(|told| Failure(format!("conversions, seed {seed}, round {number}: {told}")))?;
        number += 1;
        report(&tally.conversions);
    }
    Ok(tally.conversions)
}
