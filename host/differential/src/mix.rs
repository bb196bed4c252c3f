//! Which histories a run plays, and what it must come to.

use std::fmt;

use milebeacon::Sizes;

use crate::dice::Dice;
use crate::history::{Begin, History};
use crate::start::{roomy_sizes, small_sizes};
use crate::tally::Tally;

/// A mix of histories. Damaged ledgers, wrong lengths, codec and statuses are the same in each.
#[derive(Clone, Copy, Debug, PartialEq, Eq)]
pub enum Mix {
    /// Steps at the limits of the rules and beyond, of which most are refused.
    Limits,
    /// Steps of which most settle, and more of them on the largest tables.
    Settling,
}

/// How often something must come in a run: once in so many submissions, or more often.
#[derive(Clone, Copy, Debug)]
pub struct Goal {
    what: &'static str,
    times: u64,
    submissions: u64,
    once_in: u64,
}

impl Goal {
    /// Whether it came often enough.
    pub fn is_reached(&self) -> bool {
        self.times * self.once_in >= self.submissions
    }
}

impl fmt::Display for Goal {
    fn fmt(&self, f: &mut fmt::Formatter<'_>) -> fmt::Result {
        let verdict = if self.is_reached() {
            "reached"
        } else {
            "NOT REACHED"
        };
        write!(
            f,
            "{}: {} of {}, wanted once in {}: {verdict}",
            self.what, self.times, self.submissions, self.once_in
        )
    }
}

impl fmt::Display for Mix {
    fn fmt(&self, f: &mut fmt::Formatter<'_>) -> fmt::Result {
        f.write_str(match self {
            Mix::Limits => "limits",
            Mix::Settling => "settling",
        })
    }
}

impl Mix {
    /// The mix of this name.
    pub fn named(name: &str) -> Option<Mix> {
        let all = [Mix::Limits, Mix::Settling];
        all.into_iter().find(|mix| mix.to_string() == name)
    }

    /// The histories of one round.
    pub(crate) fn histories(self, round: u64, dice: &mut Dice) -> Vec<History> {
        let mut histories = match self {
            Mix::Limits => limits(round, dice),
            Mix::Settling => settling(round, dice),
        };
        let departures = match self {
            Mix::Limits => 2,
            Mix::Settling => 3,
        };
        for _ in 0..departures {
            // neither the first nor the last, which are recorded too
            histories.insert(1, History::departures(dice, 60));
        }
        if round % 4 == 3 {
            histories.push(one_entry(dice));
        }
        histories
    }

    /// What a run of this mix must come to, besides every answer.
    pub fn goals(self, tally: &Tally) -> Vec<Goal> {
        let goal = |what, times, once_in| Goal {
            what,
            times,
            submissions: tally.submissions(),
            once_in,
        };
        match self {
            Mix::Limits => Vec::new(),
            Mix::Settling => vec![
                goal("settled", tally.of_answer(0), 3),
                goal("answer 35", tally.of_answer(35), 2_000),
                goal("on the largest tables", tally.on_largest, 400),
            ],
        }
    }
}

/// A history on a journal of one row: the newest, the oldest and the last of the table.
fn one_entry(dice: &mut Dice) -> History {
    let sizes = Sizes {
        journal: 1,
        ..small_sizes(dice)
    };
    let begin = dice.pick(&[Begin::Fresh, Begin::Lent]);
    History::of(begin, sizes, dice, 40)
}

fn limits(round: u64, dice: &mut Dice) -> Vec<History> {
    let mut histories: Vec<History> = (0..4).map(|_| History::roll(dice, 120)).collect();
    if round % 8 == 0 {
        let begin = dice.pick(&[Begin::Fresh, Begin::Lent]);
        histories.push(History::of(begin, Sizes::PROGRAM, dice, 200));
    }
    if round % 64 == 1 {
        histories.push(History::of(Begin::NearlyFull, Sizes::LARGEST, dice, 12));
    }
    histories
}

fn settling(round: u64, dice: &mut Dice) -> Vec<History> {
    // Some of the other mix, for the answers that plain steps do not come to.
    let mut histories: Vec<History> = (0..2).map(|_| History::roll(dice, 120)).collect();
    for begin in [Begin::Fresh, Begin::Fresh, Begin::Fresh, Begin::HalfFull] {
        let sizes = roomy_sizes(dice);
        let history = History::settling(begin, sizes, dice, 260);
        histories.push(with_newcomers(history, dice));
    }
    if round % 4 == 0 {
        let begin = dice.pick(&[Begin::Fresh, Begin::HalfFull]);
        histories.push(History::settling(begin, Sizes::PROGRAM, dice, 400));
    }
    if round % 16 == 1 {
        let begin = dice.pick(&[Begin::HalfFull, Begin::HalfFull, Begin::NearlyFull]);
        histories.push(History::settling(begin, Sizes::LARGEST, dice, 100));
    }
    histories
}

/// The same, but one grant in sixteen is to a party that has no wallet; for some no row is left.
fn with_newcomers(mut history: History, dice: &mut Dice) -> History {
    for grant in history.steps.iter_mut().filter(|step| step.op == 0) {
        if dice.once_in(16) {
            grant.target = 1;
        }
    }
    history
}
