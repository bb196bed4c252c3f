//! What a report counts: the cells of its grid, and the credits beside it.

use std::fmt;

use crate::answer::{Answer, Refusal, ANSWERS};
use crate::ffi;
use crate::operation::{Operation, GRID_ROWS};

/// A cell of a report's grid: an operation, and what was answered.
///
/// ```
/// use milebeacon::{Answer, Cell, Operation, Refusal};
///
/// let retry = Cell::refused(Operation::Open, Refusal::NonceSeen);
/// assert_eq!((retry.row(), retry.column()), (3, 11));
/// assert_eq!(retry.to_string(), "open: 11 nonce_seen");
/// assert_eq!(retry, Cell::of(Some(Operation::Open), Answer::Refused(Refusal::NonceSeen)));
///
/// let noise = Cell::refused(None, Refusal::MalformedRecord);
/// assert_eq!((noise.row(), noise.column()), (0, 3));
/// assert_eq!(noise.to_string(), "no operation: 3 malformed_record");
/// ```
#[derive(Clone, Copy, Debug, PartialEq, Eq, Hash)]
pub struct Cell {
    /// The operation; none for records whose operation byte is none.
    pub operation: Option<Operation>,
    /// The refusal; none if settled.
    pub refusal: Option<Refusal>,
}

impl Cell {
    /// The records of this operation that settled.
    pub fn settled(operation: Operation) -> Cell {
        Cell {
            operation: Some(operation),
            refusal: None,
        }
    }

    /// The records of this operation, or of none, that were refused so.
    pub fn refused(operation: impl Into<Option<Operation>>, refusal: Refusal) -> Cell {
        Cell {
            operation: operation.into(),
            refusal: Some(refusal),
        }
    }

    /// The records of this operation, or of none, that got this answer. Its word is not looked at.
    pub fn of(operation: Option<Operation>, answer: Answer) -> Cell {
        Cell {
            operation,
            refusal: answer.settled().err(),
        }
    }

    /// Every cell, row by row and in each by the answers' numbers. Row 8 of the grid is no
    /// operation's, and has none.
    pub fn all() -> impl Iterator<Item = Cell> {
        (0..GRID_ROWS)
            .flat_map(|row| (0..ANSWERS).map(move |column| (row as u64, column as u64)))
            .filter_map(|(row, column)| Cell::at(row, column))
    }

    /// The cell in this row and column.
    pub(crate) fn at(row: u64, column: u64) -> Option<Cell> {
        let operation = match row {
            0 => None,
            row => Some(Operation::from_number(u8::try_from(row).ok()?)?),
        };
        Some(Cell::of(operation, Answer::from_parts(column, 0)?))
    }

    /// Its row: the operation's number, or 0.
    pub fn row(self) -> usize {
        self.operation
            .map_or(0, |operation| operation.number().into())
    }

    /// Its column: the answer's number.
    pub fn column(self) -> usize {
        self.refusal.map_or(0, |refusal| refusal as usize)
    }

    /// The operation's name, or `no operation`.
    pub fn operation_name(self) -> &'static str {
        self.operation.map_or("no operation", Operation::name)
    }

    /// The answer's name.
    pub fn answer_name(self) -> &'static str {
        self.refusal
            .map_or(Answer::Settled(0), Answer::Refused)
            .name()
    }
}

impl fmt::Display for Cell {
    fn fmt(&self, f: &mut fmt::Formatter<'_>) -> fmt::Result {
        let (operation, answer) = (self.operation_name(), self.answer_name());
        write!(f, "{operation}: {} {answer}", self.column())
    }
}

/// A figure of a report, by the number with which it is named: one of five sums of credits, or a
/// count of the grid.
#[non_exhaustive]
#[derive(Clone, Copy, Debug, PartialEq, Eq, PartialOrd, Ord, Hash)]
pub enum Figure {
    /// The amounts of the grants that settled.
    Granted = 1,
    /// The amounts of the transfers that settled.
    Transferred = 2,
    /// The amounts of the escrows that paid their recipients: by a release, or as a receipt was
    /// accepted by its requester or by a sweep.
    Released = 3,
    /// The amounts of the escrows that a refund gave back to their senders.
    Refunded = 4,
    /// The amounts of the escrows that a sweep gave back to their senders.
    Expired = 5,
    /// A count of the grid.
    Cell = 6,
}

impl Figure {
    /// The five sums of credits, in the order in which a report has them.
    pub const CREDITS: &'static [Figure] = &[
        Figure::Granted,
        Figure::Transferred,
        Figure::Released,
        Figure::Refunded,
        Figure::Expired,
    ];

    /// Its number, 1 to 6.
    pub fn number(self) -> u64 {
        self as u64
    }

    /// Its name, as `granted`.
    pub fn name(self) -> &'static str {
        match self {
            Figure::Granted => "granted",
            Figure::Transferred => "transferred",
            Figure::Released => "released",
            Figure::Refunded => "refunded",
            Figure::Expired => "expired",
            Figure::Cell => "cell",
        }
    }

    fn from_number(number: u64) -> Option<Figure> {
        let all = Figure::CREDITS.iter().chain([&Figure::Cell]);
        all.copied().find(|figure| figure.number() == number)
    }
}

impl fmt::Display for Figure {
    fn fmt(&self, f: &mut fmt::Formatter<'_>) -> fmt::Result {
        f.write_str(self.name())
    }
}

/// The figure that would pass 2^64 - 1, and the entry that it would pass with: before that entry the
/// report has stopped.
///
/// Of several figures that would pass it is the first, a count of the grid being the last.
///
/// ```
/// use milebeacon::{Cell, Figure, Named, Operation};
///
/// let entry = Cell::settled(Operation::Reply);
/// let named = Named { figure: Figure::Released, entry };
/// assert_eq!(named.to_string(), "the credits released would pass 2^64 - 1 (reply: 0 settled)");
/// let named = Named { figure: Figure::Cell, entry };
/// assert_eq!(named.to_string(), "the count of reply: 0 settled would pass 2^64 - 1");
/// ```
#[derive(Clone, Copy, Debug, PartialEq, Eq, Hash)]
pub struct Named {
    /// The figure.
    pub figure: Figure,
    /// The cell in which the entry would be counted.
    pub entry: Cell,
}

impl Named {
    /// What the core has named, if anything.
    pub(crate) fn from_core([figure, row, column]: ffi::Named) -> Option<Named> {
        if figure == 0 {
            return None;
        }
        let parts = Figure::from_number(figure).zip(Cell::at(row, column));
        let (figure, entry) = parts
            .expect("the core names one of six figures, and a cell of the grid: it is proved to");
        Some(Named { figure, entry })
    }

    /// The same in numbers.
    pub(crate) fn to_core(named: Option<Named>) -> ffi::Named {
        named.map_or([0; 3], |Named { figure, entry }| {
            [figure.number(), entry.row() as u64, entry.column() as u64]
        })
    }
}

impl fmt::Display for Named {
    fn fmt(&self, f: &mut fmt::Formatter<'_>) -> fmt::Result {
        let Named { figure, entry } = self;
        match figure {
            Figure::Cell => write!(f, "the count of {entry} would pass 2^64 - 1"),
            credits => write!(f, "the credits {credits} would pass 2^64 - 1 ({entry})"),
        }
    }
}
