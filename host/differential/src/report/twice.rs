//! A report twice, once for each program.

use milebeacon::ffi::{self, Figures, Told};
use milebeacon::Tables;
use second::{Added, Figure, Report, GRID_COLUMNS, GRID_ROWS};

use super::gains::{Gain, CELL, FIGURES, NO_LONGER};
use crate::twin::{same, Difference};

/// What a report has named, in the core's words: the figure's place counted from 1, or 0; the row
/// and the column of the entry.
pub type Named = ffi::Named;

/// Both programs' report; they are equal whenever no difference was found.
#[derive(Clone, Debug, PartialEq, Eq)]
pub struct Twice {
    grid: ffi::Grid,
    credits: Figures,
    named: Named,
    second: Report,
}

/// What the second program says of a call, as the core says it.
pub fn told(added: Added) -> Told {
    let (number, entries) = match added {
        Added::WrongLength => (1, 0),
        Added::AlreadyStopped => (0, 0),
        Added::Counted { entries, .. } => (0, entries),
        Added::Stopped { entry, .. } => (0, entry - 1),
    };
    Told { number, entries }
}

/// The place of a figure, and the cell if it is one.
fn place(figure: Figure) -> (usize, Option<(usize, usize)>) {
    match figure {
        Figure::Granted => (0, None),
        Figure::Transferred => (1, None),
        Figure::Released => (2, None),
        Figure::Refunded => (3, None),
        Figure::Expired => (4, None),
        Figure::Cell { operation, answer } => (CELL, Some((operation, answer))),
    }
}

/// The five sums of the second program's report, in the order in which they are named.
pub fn five(report: &Report) -> Figures {
    [
        report.granted,
        report.transferred,
        report.released,
        report.refunded,
        report.expired,
    ]
}

impl Twice {
    /// Both begin with this. Something is named if its first word is not 0.
    pub fn new(grid: ffi::Grid, credits: Figures, named: Named) -> Twice {
        let [granted, transferred, released, refunded, expired] = credits;
        let [figure, row, column] = named;
        let figure = match figure {
            0 => None,
            1 => Some(Figure::Granted),
            2 => Some(Figure::Transferred),
            3 => Some(Figure::Released),
            4 => Some(Figure::Refunded),
            5 => Some(Figure::Expired),
            _ => Some(Figure::Cell {
                operation: row as usize,
                answer: column as usize,
            }),
        };
        let second = Report {
            grid,
            granted,
            transferred,
            released,
            refunded,
            expired,
            named: figure,
        };
        Twice {
            grid,
            credits,
            named,
            second,
        }
    }

    /// The second program's.
    pub fn second(&self) -> &Report {
        &self.second
    }

    /// What is named.
    pub fn named(&self) -> Named {
        self.named
    }

    /// Whether something is named.
    pub fn has_stopped(&self) -> bool {
        self.named[0] != 0
    }

    /// A figure; of the cells, this one.
    pub fn figure(&self, figure: usize, (row, column): (usize, usize)) -> u64 {
        let credits = self.credits.get(figure).copied();
        credits.unwrap_or(self.grid[row][column])
    }

    /// The row that nothing is counted in.
    pub fn row_no_longer_used(&self) -> &[u64] {
        &self.grid[NO_LONGER]
    }

    /// Every cell with its row and column.
    pub fn cells(&self) -> impl Iterator<Item = ((usize, usize), u64)> + '_ {
        let rows = self.grid.iter().enumerate();
        rows.flat_map(|(row, counts)| {
            let counts = counts.iter().enumerate();
            counts.map(move |(column, &count)| ((row, column), count))
        })
    }

    /// The figures that would pass 2^64 - 1 with this entry, in the order in which they are named.
    pub fn passing(&self, gain: &Gain) -> Vec<usize> {
        let passes = |&figure: &usize| {
            let more = gain.of(figure, gain.cell);
            self.figure(figure, gain.cell).checked_add(more).is_none()
        };
        (0..FIGURES.len()).filter(passes).collect()
    }

    /// The core's call.
    pub(crate) fn add_core(&mut self, tables: Tables<&mut [u64]>, recording: &[u8]) -> Told {
        ffi::report(
            tables,
            recording,
            &mut self.grid,
            &mut self.credits,
            &mut self.named,
        )
    }

    /// The second program's call.
    pub(crate) fn add_second(
        &mut self,
        tables: &mut second::Tables<'_>,
        recording: &[u8],
    ) -> Added {
        second::add_recording(&mut self.second, tables, recording)
    }

    /// Every cell, the five sums and what is named.
    pub(crate) fn compare(&self) -> Result<(), Difference> {
        let cells = self.cells().zip(self.second.grid.iter().flatten());
        let mut differing = cells.filter(|((_, core), second)| core != *second);
        if let Some((((row, column), core), &second)) = differing.next() {
            same(&format!("the cell {row}, {column}"), core, second)?;
        }
        let sums = self.credits.into_iter().zip(five(&self.second));
        for ((core, second), name) in sums.zip(FIGURES) {
            same(name, core, second)?;
        }
        // of the entry that it has stopped before the second program says no more
        let [figure, row, column] = self.named;
        let cell = Some((row as usize, column as usize)).filter(|_| figure == CELL as u64 + 1);
        let core = figure.checked_sub(1).map(|figure| (figure as usize, cell));
        same("what is named", core, self.second.named.map(place)).map(drop)
    }

    /// What adding these whole entries must have made of a report, given what was told: all counted
    /// one by one, or all up to the first with which a figure would pass, and that one named.
    pub fn meant(&self, before: &Twice, gains: &[Gain], told: Told) -> Result<(), Difference> {
        let wrong = |what: String| Err(Difference(format!("both programs {what}")));
        let counted = told.entries as usize;
        if counted > gains.len() {
            return wrong(format!("count {counted} entries of {}", gains.len()));
        }
        let (counted, rest) = gains.split_at(counted);
        let mut sums = [0; CELL];
        let mut counts = [[0; GRID_COLUMNS]; GRID_ROWS];
        for gain in counted {
            for (sum, more) in sums.iter_mut().zip(gain.credits) {
                *sum += u128::from(more);
            }
            counts[gain.cell.0][gain.cell.1] += 1;
        }
        let sums = (0..CELL)
            .zip(sums)
            .map(|(figure, more)| (figure, (0, 0), more));
        let cells = self.cells();
        let cells = cells.map(|((row, column), _)| (CELL, (row, column), counts[row][column]));
        for (figure, cell, more) in sums.chain(cells) {
            let sum = u128::from(before.figure(figure, cell)) + more;
            let is = self.figure(figure, cell);
            if u128::from(is) != sum {
                let name = FIGURES[figure];
                return wrong(format!(
                    "have {is} of {name} {cell:?} where {sum} was meant"
                ));
            }
        }
        let named = match rest.first() {
            None => before.named,
            Some(next) => {
                let first = self.passing(next).first().map(|&figure| figure as u64 + 1);
                [first.unwrap_or(0), next.cell.0 as u64, next.cell.1 as u64]
            }
        };
        if self.named == named && (rest.is_empty() || self.has_stopped()) {
            Ok(())
        } else {
            let is = self.named;
            wrong(format!(
                "stop so that {is:?} is named where {named:?} was meant"
            ))
        }
    }
}
