//! Makes a month in which a difference was found small.

use second::GRID_COLUMNS;

use super::brought::{Brought, Room};
use super::gains::{CELL, FIGURES};
use super::{all_gains, made, Month};
use crate::replay::shrink::told;
use crate::small::{shrink_by, Shrink, Small, Test};
use crate::tally::Tally;
use crate::twin::Difference;

/// Leaves out recordings and steps and makes the rest plainer, as long as some difference is found.
pub fn shrink(month: &Month, difference: Difference) -> Small<Month> {
    shrink_by(month, difference, &|month| {
        month.compare(&mut Tally::default()).err()
    })
}

impl Shrink for Month {
    type Found = Difference;

    fn smaller(small: &mut Small<Month>, test: Test<'_, Month>) {
        fewer_parts(small, test);
        plainer_report(small, test);
        smaller_parts(small, test);
    }
}

/// Tries each number below this, the last first.
fn each(
    small: &mut Small<Month>,
    test: Test<'_, Month>,
    count: usize,
    change: fn(&mut Month, usize),
) {
    for place in (0..count).rev() {
        let mut candidate = small.inner.clone();
        change(&mut candidate, place);
        small.adopt(candidate, test);
    }
}

fn fewer_parts(small: &mut Small<Month>, test: Test<'_, Month>) {
    let parts = small.inner.parts.len();
    each(small, test, parts, |month, place| {
        month.parts.remove(place);
    });
    let parts = small.inner.parts.len();
    each(small, test, parts, |month, place| {
        month.parts[place].left = false;
    });
}

fn plainer_report(small: &mut Small<Month>, test: Test<'_, Month>) {
    let mut candidate = small.inner.clone();
    candidate.brought = Brought::BLANK;
    small.adopt(candidate, test);
    let changes: [fn(&mut Month); 2] = [
        |month| month.brought.seed = 0,
        |month| month.brought.named = [0; 3],
    ];
    for change in changes {
        let mut candidate = small.inner.clone();
        change(&mut candidate);
        small.adopt(candidate, test);
    }
    let full = small.inner.brought.full.len();
    each(small, test, full, |month, place| {
        month.brought.full.remove(place);
    });
    for group in 0..small.inner.brought.full.len() {
        let mut candidate = small.inner.clone();
        candidate.brought.full[group].turn = 0;
        small.adopt(candidate, test);
        for place in (0..small.inner.brought.full[group].figures.len()).rev() {
            let mut candidate = small.inner.clone();
            candidate.brought.full[group].figures.remove(place);
            if !small.adopt(candidate, test) {
                let mut candidate = small.inner.clone();
                candidate.brought.full[group].figures[place].1 = Room::Short;
                small.adopt(candidate, test);
            }
        }
    }
}

/// Each recording by itself, as if it were replayed.
fn smaller_parts(small: &mut Small<Month>, test: Test<'_, Month>) {
    for place in 0..small.inner.parts.len() {
        let month = small.inner.clone();
        let with = |replay| {
            let mut month = month.clone();
            month.parts[place].replay = replay;
            month
        };
        let replay = &month.parts[place].replay;
        let smaller = shrink_by(replay, small.found.clone(), &|replay| {
            test(&with(replay.clone()))
        });
        small.inner = with(smaller.inner);
        small.found = smaller.found;
    }
}

impl Small<Month> {
    /// The month in words: what is brought along, the recordings, and the difference.
    pub fn story(&self) -> String {
        let Month { brought, parts } = &self.inner;
        let mut story = format!("a report, brought along: {brought:?}\n");
        if let Ok(made) = made(parts) {
            let report = brought.report(&all_gains(&made));
            for (figure, name) in FIGURES.iter().enumerate().take(CELL) {
                story += &shown(name, report.figure(figure, (0, 0)));
            }
            for ((row, column), count) in report.cells() {
                // of numbers by chance the first few say enough
                if row * GRID_COLUMNS + column < 4 || brought.seed == 0 {
                    story += &shown(&format!("cell {row}, {column}"), count);
                }
            }
        }
        for (number, part) in (1..).zip(parts) {
            let left = if part.left {
                ", on the tables of the call before"
            } else {
                ""
            };
            story += &format!("recording {number}{left}: {}", told(&part.replay));
        }
        story + &format!("{}\n", self.found)
    }
}

fn shown(name: &str, number: u64) -> String {
    match number {
        0 => String::new(),
        _ => format!("    {name}: {number}\n"),
    }
}
