//! The month's report: counts of what recordings hold, and the credits that they moved.

use std::fmt;

use crate::answer::{Refusal, ANSWERS};
use crate::ffi;
use crate::figure::{Cell, Figure, Named};
use crate::ledger::Ledger;
use crate::operation::GRID_ROWS;

/// Counts of entries by operation and answer over any number of recordings, and the credits granted,
/// transferred, released, refunded and expired in them.
///
/// Each recording is replayed on a fresh ledger, and what is counted is the core's own answer. A
/// record that is malformed counts in the row of its operation byte.
///
/// Each count and each sum is a `u64`. Before an entry with which one would pass 2^64 - 1 the report
/// stops, and [names](Report::named) it: nothing of that entry is counted, and nothing can be added
/// any more.
///
/// ```
/// use milebeacon::{Added, Cell, Envelope, Ledger, Operation, Recorder, Refusal, Report};
/// use milebeacon::{Sizes, Submission};
///
/// let mut recording = Vec::new();
/// let mut recorder = Recorder::start(Ledger::new(Sizes::PROGRAM)?, &mut recording)?;
/// let grant = Submission::grant(Envelope::new(1_000, 1, 1).by_admin(), 7, 50_000_000);
/// let transfer = Submission::transfer(Envelope::new(1_000, 7, 1), 8, 20_000_000);
/// for submission in [grant, transfer, transfer] {
///     let _ = recorder.settle(&submission)?;
/// }
///
/// let mut ledger = Ledger::new(Sizes::PROGRAM)?; // a ledger to replay on
/// let mut report = Report::new();
/// assert_eq!(report.add(&mut ledger, &recording)?, Added::All { entries: 3 });
/// assert_eq!(report.add(&mut ledger, &recording)?, Added::All { entries: 3 });
///
/// assert_eq!(report.entries(), 6);
/// assert_eq!(report.count(Cell::settled(Operation::Transfer)), 2);
/// assert_eq!(report.count(Cell::refused(Operation::Transfer, Refusal::NonceSeen)), 2);
/// assert_eq!(report.granted(), 100_000_000);
/// assert_eq!(report.transferred(), 40_000_000);
/// assert_eq!(report.named(), None);
/// # Ok::<(), Box<dyn std::error::Error>>(())
/// ```
#[derive(Clone, Debug, PartialEq, Eq, Hash)]
pub struct Report {
    grid: ffi::Grid,
    figures: ffi::Figures,
    named: Option<Named>,
}

impl Default for Report {
    fn default() -> Report {
        Report::from_parts([[0; ANSWERS]; GRID_ROWS], [0; 5], None)
    }
}

impl Report {
    /// A report with nothing counted.
    pub fn new() -> Report {
        Report::default()
    }

    /// A report brought along: its [grid](Report::grid), its [credits](Report::credits) and what it
    /// has [named](Report::named), any numbers.
    ///
    /// What it brings along in row 8, such as the disputes that were counted there when they were an
    /// operation by themselves, stays there: [`entries`](Report::entries) has it in its sum, and
    /// [`counts`](Report::counts) does not.
    ///
    /// ```
    /// use milebeacon::{Added, Envelope, Ledger, Recorder, Report, Sizes, Submission};
    ///
    /// let mut recording = Vec::new();
    /// let mut recorder = Recorder::start(Ledger::new(Sizes::PROGRAM)?, &mut recording)?;
    /// for nonce in 1..=2 {
    ///     let admin = Envelope::new(1_000, 1, nonce).by_admin();
    ///     recorder.settle(&Submission::grant(admin, 7, 10))?.settled()?;
    /// }
    ///
    /// let full = [u64::MAX - 15, 0, 0, 0, 0];
    /// let mut report = Report::from_parts(*Report::new().grid(), full, None);
    /// let added = report.add(&mut Ledger::new(Sizes::PROGRAM)?, &recording)?;
    /// assert_eq!(
    ///     added.to_string(),
    ///     "stopped before entry 2: the credits granted would pass 2^64 - 1 (grant: 0 settled)"
    /// );
    /// assert_eq!((report.entries(), report.granted()), (1, u64::MAX - 5));
    /// assert!(report.named().is_some());
    /// # Ok::<(), Box<dyn std::error::Error>>(())
    /// ```
    pub fn from_parts(grid: ffi::Grid, credits: ffi::Figures, named: Option<Named>) -> Report {
        Report {
            grid,
            figures: credits,
            named,
        }
    }

    /// Adds a recording: starts the ledger afresh, submits the whole entries one after the other and
    /// counts each by the core's own answer. Recorded answers are not looked at.
    ///
    /// The tables are left as after the last entry counted. An entry that is cut short at the end is
    /// not counted, and not told: [`Entries::cut`](crate::Entries::cut) shows it. If the report has
    /// stopped before, it and the tables stay as they are.
    ///
    /// A recording gives the answers that it had when it was made on a fresh ledger of the same
    /// [sizes](crate::Sizes); a [replay](Ledger::replay) says whether it does.
    ///
    /// # Errors
    ///
    /// [`Refusal::BadTable`] if a table has a wrong length. Then nothing has changed.
    pub fn add<T: AsRef<[u64]> + AsMut<[u64]>>(
        &mut self,
        ledger: &mut Ledger<T>,
        recording: &[u8],
    ) -> Result<Added, Refusal> {
        let mut words = Named::to_core(self.named);
        let told = ffi::report(
            ledger.lend(),
            recording,
            &mut self.grid,
            &mut self.figures,
            &mut words,
        );
        if told.number != 0 {
            return Err(Refusal::BadTable);
        }
        if let Some(named) = self.named {
            return Ok(Added::HadStopped { named });
        }
        self.named = Named::from_core(words);
        Ok(match self.named {
            None => Added::All {
                entries: told.entries,
            },
            Some(named) => Added::Stopped {
                before: told.entries + 1,
                named,
            },
        })
    }

    /// How many entries had this operation and this answer.
    pub fn count(&self, cell: Cell) -> u64 {
        self.grid[cell.row()][cell.column()]
    }

    /// The [cells](Cell::all) that have a count other than 0, row by row, and their counts.
    pub fn counts(&self) -> impl Iterator<Item = (Cell, u64)> + '_ {
        let counts = Cell::all().map(|cell| (cell, self.count(cell)));
        counts.filter(|&(_, count)| count != 0)
    }

    /// How many entries were counted: the sum of the grid.
    pub fn entries(&self) -> u128 {
        self.grid.iter().flatten().copied().map(u128::from).sum()
    }

    /// The grid: a row for each operation, by its number, and row 0 for records of none; in each a
    /// column for every answer, by its number. Accepts and disputes are row 7. Row 8 is no
    /// operation's, and nothing is counted in it.
    pub fn grid(&self) -> &ffi::Grid {
        &self.grid
    }

    /// The credits granted, transferred, released, refunded and expired, in this order, which is that
    /// of [`Figure::CREDITS`].
    pub fn credits(&self) -> ffi::Figures {
        self.figures
    }

    /// The credits granted.
    pub fn granted(&self) -> u64 {
        self.figure(Figure::Granted)
    }

    /// The credits transferred.
    pub fn transferred(&self) -> u64 {
        self.figure(Figure::Transferred)
    }

    /// The credits released, by releases, by accepts and by sweeps.
    pub fn released(&self) -> u64 {
        self.figure(Figure::Released)
    }

    /// The credits refunded.
    pub fn refunded(&self) -> u64 {
        self.figure(Figure::Refunded)
    }

    /// The credits of escrows that expired.
    pub fn expired(&self) -> u64 {
        self.figure(Figure::Expired)
    }

    /// What the report has named, if it has stopped.
    pub fn named(&self) -> Option<Named> {
        self.named
    }

    /// One of the five sums.
    fn figure(&self, figure: Figure) -> u64 {
        self.figures[figure as usize - 1]
    }
}

/// What adding a recording to a [`Report`] came to.
#[must_use = "the report may have stopped"]
#[derive(Clone, Copy, Debug, PartialEq, Eq, Hash)]
pub enum Added {
    /// Every whole entry was counted.
    All {
        /// How many there are.
        entries: u64,
    },
    /// The report stopped, as a figure would pass 2^64 - 1. The entries before this one were
    /// counted; it was neither counted nor applied, and those after it were not looked at.
    Stopped {
        /// The entry, counted from 1.
        before: u64,
        /// The figure, and what was answered to the entry.
        named: Named,
    },
    /// The report had stopped before. The recording was not looked at.
    HadStopped {
        /// What it had named.
        named: Named,
    },
}

impl Added {
    /// How many entries of the recording were counted.
    pub fn counted(&self) -> u64 {
        match *self {
            Added::All { entries } => entries,
            Added::Stopped { before, .. } => before.saturating_sub(1),
            Added::HadStopped { .. } => 0,
        }
    }

    /// Whether every whole entry was counted.
    pub fn is_all(&self) -> bool {
        matches!(self, Added::All { .. })
    }
}

impl fmt::Display for Added {
    fn fmt(&self, f: &mut fmt::Formatter<'_>) -> fmt::Result {
        match self {
            Added::All { entries: 1 } => f.write_str("counted 1 entry"),
            Added::All { entries } => write!(f, "counted {entries} entries"),
            Added::Stopped { before, named } => {
                write!(f, "stopped before entry {before}: {named}")
            }
            Added::HadStopped { named } => write!(f, "had stopped: {named}"),
        }
    }
}
