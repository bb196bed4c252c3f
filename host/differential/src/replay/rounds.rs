//! The replays of one round of a run.

use milebeacon::Sizes;

use super::lent::{another_length, On};
use super::recording::{By, Change};
use super::shrink::shrink;
use super::Replay;
use crate::dice::Dice;
use crate::history::{Begin, History};
use crate::tally::Tally;

/// How many cuts, and how many other lengths of tables, there are in a round.
const CUTS: u64 = 8;
const OTHER_LENGTHS: u64 = 2;
/// An entry that is cut is one of so many.
const BEFORE_A_CUT: usize = 6;

/// Records one of a round's histories and replays it, as it is and changed. A difference is told in
/// a small replay.
pub fn round(
    histories: &[History],
    round: u64,
    seed: u64,
    tally: &mut Tally,
) -> Result<(), String> {
    let dice = &mut Dice::new(seed);
    let replay = match histories.last() {
        // it is the one of the program's or the largest tables where the round has one
        Some(last) => of(last, dice),
        None => return Ok(()),
    };
    let entries = replay.entries().map_err(|d| d.to_string())?;
    for (change, on) in planned(round, dice) {
        let places = match change {
            // what was recorded on a ledger in use mostly disagrees before it comes to the cut
            Change::Cut(_) if replay.history.begin != Begin::Fresh && dice.once_in(2) => 1,
            Change::Cut(_) => entries.len().min(BEFORE_A_CUT),
            _ => entries.len(),
        };
        let replay = Replay {
            change,
            place: dice.index(places.max(1)),
            on,
            seed: dice.word(),
            ..replay.clone()
        };
        if let Err(difference) = replay.compare_recorded(&entries, tally) {
            return Err(shrink(&replay, difference).story());
        }
    }
    Ok(())
}

/// The replay of a history's first steps; most are begun afresh.
fn of(history: &History, dice: &mut Dice) -> Replay {
    let mut history = history.clone();
    history.steps.truncate(dice.pick(&[5, 15, 45, 400]));
    if history.sizes == Sizes::LARGEST || !dice.once_in(4) {
        history.begin = Begin::Fresh;
    }
    Replay {
        history,
        by: dice.pick(&[By::Core, By::Second]),
        change: Change::Nothing,
        place: 0,
        on: On::Words,
        seed: 0,
    }
}

/// What is done in the round of this number.
fn planned(round: u64, dice: &mut Dice) -> Vec<(Change, On)> {
    let changes = [
        Change::Record,
        Change::Number,
        Change::Record,
        Change::NumberAbove,
        Change::Word,
        Change::WordThenCut,
    ];
    let mut planned = vec![
        (Change::Nothing, On::Words),
        (dice.pick(&changes), On::Words),
        (dice.pick(&changes), On::InUse),
        (Change::Nothing, On::OtherSizes),
    ];
    match round % 4 {
        0 => planned.push((Change::Nothing, On::InUse)),
        1 => planned.push((Change::Refusals, On::InUse)),
        2 => planned.push((Change::Empty, On::InUse)),
        _ => planned.push((Change::Record, On::Words)),
    }
    planned.extend((0..CUTS).map(|k| {
        let kept = (round * CUTS + k) % 116 + 1;
        (
            Change::Cut(kept as usize),
            dice.pick(&[On::Words, On::InUse]),
        )
    }));
    planned.extend((0..OTHER_LENGTHS).map(|k| {
        let (table, length) = another_length(round * OTHER_LENGTHS + k);
        // a wrong length comes before all that a recording can hold
        let change = dice.pick(&[Change::Nothing, Change::Word, Change::Empty, Change::Cut(1)]);
        (change, On::Length(table, length))
    }));
    planned
}
