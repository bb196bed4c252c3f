//! The reports of one round of a run.

use milebeacon::Sizes;
use second::GRID_ROWS;

use super::brought::{Brought, Full, Room};
use super::gains::{Gain, FIGURES};
use super::gains::{CELL, EXPIRED, GRANTED, REFUNDED, RELEASED, TRANSFERRED};
use super::shrink::shrink;
use super::{all_gains, days, made, Made, Month, Part};
use crate::dice::Dice;
use crate::history::{Begin, History};
use crate::replay::lent::{another_length, Length, On};
use crate::replay::recording::{By, Change};
use crate::replay::Replay;
use crate::tally::{Tally, LAST_ANSWER};

/// One round of so many has reports; the rounds of the largest tables are among them.
const ONE_ROUND_OF: u64 = 4;
/// How many times such a round makes recordings in which much happens, and how many reports it adds
/// the same ones to, and how many cuts there are in it.
const BUSY: u64 = 2;
const REPORTS: u64 = 2;
const CUTS: u64 = 8;
/// An entry that is cut is one of so many.
const BEFORE_A_CUT: usize = 4;

/// The first number that is no answer's.
const NO_ANSWER: u64 = LAST_ANSWER as u64 + 1;

use Room::{Just, Short};

/// Figures that become full with one and the same entry, if there is one that raises them all.
const AIMS: [&[(usize, Room)]; 24] = [
    &[(GRANTED, Short)],
    &[(TRANSFERRED, Just)],
    &[(RELEASED, Short), (EXPIRED, Short)],
    &[(RELEASED, Short)],
    &[(REFUNDED, Just)],
    &[(GRANTED, Short), (CELL, Short)],
    &[(EXPIRED, Short)],
    &[(CELL, Just)],
    &[(RELEASED, Short), (EXPIRED, Short), (CELL, Short)],
    &[(TRANSFERRED, Short)],
    &[(GRANTED, Just)],
    &[(TRANSFERRED, Short), (CELL, Short)],
    &[(REFUNDED, Short)],
    &[(RELEASED, Just)],
    &[(RELEASED, Just), (EXPIRED, Short)],
    &[(CELL, Short)],
    &[(EXPIRED, Just)],
    &[(RELEASED, Short), (CELL, Short)],
    &[(RELEASED, Short), (EXPIRED, Just), (CELL, Just)],
    &[(RELEASED, Just), (EXPIRED, Just), (CELL, Short)],
    &[(REFUNDED, Short), (CELL, Short)],
    &[(EXPIRED, Short), (CELL, Short)],
    &[(RELEASED, Just), (EXPIRED, Just), (CELL, Just)],
    &[(GRANTED, Just), (CELL, Short)],
];

/// Adds recordings of a round's histories, and such as are made for it, to a few reports. A difference
/// is told in a small month.
pub fn round(
    histories: &[History],
    round: u64,
    seed: u64,
    tally: &mut Tally,
) -> Result<(), String> {
    if round % ONE_ROUND_OF != 1 || histories.is_empty() {
        return Ok(());
    }
    let turn = round / ONE_ROUND_OF;
    let dice = &mut Dice::new(seed);
    for k in 0..BUSY {
        // the last history is the one of the largest tables where the round has one
        let history = &histories[histories.len() - 1 - k as usize % histories.len()];
        let parts = busy(history, dice);
        let made = made(&parts).map_err(|d| d.to_string())?;
        for report in 0..REPORTS {
            let brought = brought((turn * BUSY + k) * REPORTS + report, &made, dice);
            let parts = parts.clone();
            compare(Month { brought, parts }, &made, tally)?;
        }
    }
    let first = &histories[0];
    for month in [
        cuts(first, turn, dice),
        lengths(first, turn, dice),
        odd(first, turn, dice),
    ] {
        let made = made(&month.parts).map_err(|d| d.to_string())?;
        compare(month, &made, tally)?;
    }
    Ok(())
}

fn compare(month: Month, made: &[Made], tally: &mut Tally) -> Result<(), String> {
    let compared = month.compare_made(made, tally);
    compared.map_err(|difference| shrink(&month, difference).story())
}

/// The recording of a history's first steps.
fn part(history: &History, steps: usize, change: Change, on: On, dice: &mut Dice) -> Part {
    let mut history = history.clone();
    history.steps.truncate(steps);
    if history.sizes == Sizes::LARGEST || !dice.once_in(4) {
        history.begin = Begin::Fresh;
    }
    let replay = Replay {
        place: dice.index(history.steps.len().max(1)),
        history,
        by: dice.pick(&[By::Core, By::Second]),
        change,
        on,
        seed: dice.word(),
    };
    Part {
        replay,
        left: false,
    }
}

/// A busy day, once or twice, and before or after it something of a history.
fn busy(history: &History, dice: &mut Dice) -> Vec<Part> {
    let changes = [
        Change::Nothing,
        Change::Record,
        Change::Number,
        Change::NumberAbove,
        Change::WordThenCut,
    ];
    let day = days::roll(dice);
    let on = dice.pick(&[On::Words, On::InUse]);
    let day = part(&day, day.steps.len(), Change::Nothing, on, dice);
    let (steps, change) = (dice.pick(&[5, 15, 30]), dice.pick(&changes));
    let on = match history.sizes {
        Sizes::LARGEST => On::Words,
        _ => dice.pick(&[On::Words, On::InUse, On::OtherSizes]),
    };
    let other = part(history, steps, change, on, dice);
    let again = Part {
        left: true,
        ..day.clone()
    };
    match dice.below(4) {
        _ if history.sizes == Sizes::LARGEST => vec![other, day],
        0 => vec![day, again, other],
        1 => vec![other, day],
        2 => vec![other, day, again],
        _ => vec![day, other],
    }
}

/// Three of four aims are those of the list one after another; in the fourth figures by chance become
/// full with entries by chance.
fn brought(aim: u64, made: &[Made], dice: &mut Dice) -> Brought {
    let gains = all_gains(made);
    let any = |dice: &mut Dice| Full {
        figures: vec![(dice.index(FIGURES.len()), dice.pick(&[Just, Short]))],
        turn: dice.index(gains.len().max(1)),
    };
    let full = match aim % 4 {
        3 => (0..dice.between(1, 3)).map(|_| any(dice)).collect(),
        k => {
            let place = (aim / 4 * 3 + k) % AIMS.len() as u64;
            vec![at_once(AIMS[place as usize], &gains, dice)]
        }
    };
    Brought {
        // what stands beside a figure of 0 is not looked at
        named: dice.pick(&[[0; 3], [0, 3, 7], [0, u64::MAX, NO_ANSWER]]),
        seed: dice.pick(&[0, 0, aim + 1]),
        full,
    }
}

fn at_once(together: &[(usize, Room)], gains: &[&Gain], dice: &mut Dice) -> Full {
    let full = Full {
        figures: together.to_vec(),
        turn: 0,
    };
    let entries = full.entries(gains).count();
    // what becomes just full stays so if there is nothing after it
    let last = together.iter().all(|&(_, room)| room == Just);
    let turn = match entries {
        0 => 0,
        _ if last => entries - 1,
        _ => dice.index(entries),
    };
    Full { turn, ..full }
}

/// One report over recordings that are cut short, each at another length.
fn cuts(history: &History, turn: u64, dice: &mut Dice) -> Month {
    let parts = (0..CUTS).map(|k| {
        let kept = (turn * CUTS + k) % 116 + 1;
        let on = dice.pick(&[On::Words, On::InUse]);
        let mut part = part(history, BEFORE_A_CUT, Change::Cut(kept as usize), on, dice);
        part.left = dice.once_in(2);
        part
    });
    Month {
        parts: parts.collect(),
        brought: Brought::BLANK,
    }
}

/// Tables of other lengths before, between and after recordings that are counted, and after the
/// report has stopped.
fn lengths(history: &History, turn: u64, dice: &mut Dice) -> Month {
    let mut parts = Vec::new();
    for k in 0..3 {
        let (table, length) = another_length(turn * 3 + k);
        let change = dice.pick(&[Change::Nothing, Change::Empty, Change::Cut(1)]);
        parts.push(part(history, 3, change, On::Length(table, length), dice));
        parts.push(part(history, 3, Change::Nothing, On::Words, dice));
    }
    // the cell of one of the first entries
    let full = dice.once_in(2).then(|| Full {
        figures: vec![(CELL, Short)],
        turn: dice.index(6),
    });
    let brought = Brought {
        full: full.into_iter().collect(),
        ..Brought::BLANK
    };
    Month { brought, parts }
}

/// By turns: a report that is brought along stopped; nothing recorded; refusals only.
fn odd(history: &History, turn: u64, dice: &mut Dice) -> Month {
    let on = dice.pick(&[On::Words, On::InUse]);
    match turn % 8 {
        0 | 1 | 4 | 5 => {
            let wrong = On::Length(dice.index(5), Length::WordMore);
            let row = dice.below(GRID_ROWS as u64);
            let named = [dice.between(1, 6), row, dice.below(NO_ANSWER)];
            let ons = dice.pick(&[[on, wrong], [wrong, on]]);
            let parts = ons.map(|on| part(history, 5, Change::Nothing, on, dice));
            let brought = Brought {
                named,
                seed: dice.word(),
                full: Vec::new(),
            };
            Month {
                brought,
                parts: parts.into(),
            }
        }
        2 | 6 | 7 => Month {
            brought: Brought::BLANK,
            parts: vec![
                part(history, 5, Change::Empty, on, dice),
                part(history, 5, Change::Nothing, on, dice),
                part(history, 5, Change::Empty, On::Words, dice),
            ],
        },
        _ => Month {
            brought: Brought::BLANK,
            parts: vec![
                part(history, 20, Change::Refusals, on, dice),
                part(history, 20, Change::Record, On::InUse, dice),
            ],
        },
    }
}
