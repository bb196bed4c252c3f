//! Which answers were reached, by operation.

use std::fmt;

use crate::closed;
use crate::closing;
use crate::coded;
use crate::convert::counts::Conversions;
use crate::daily;
use crate::departed;
use crate::lookups;
use crate::reached::Reached;
use crate::replay::counts::Replays;
use crate::replied;
use crate::report::counts::Reports;
use crate::retries;
use crate::window;

/// The highest answer number.
pub const LAST_ANSWER: usize = 43;
/// The highest operation number.
pub const OPERATIONS: usize = 12;
const SWEEP: usize = 9;

/// Counts by operation and answer. Row 0 is for records whose operation byte is none. 8 is none
/// either, but was one; so it has a row of its own here, which the report's grid has not.
#[derive(Clone, Debug)]
pub struct Tally {
    counts: [[u64; LAST_ANSWER + 1]; OPERATIONS + 1],
    submissions: u64,
    /// Submissions to tables that all have their most rows.
    pub on_largest: u64,
    /// Other calls that were compared: starts, reads, writes, lookups, statuses.
    pub other_calls: u64,
    /// Payments that a hold decided at the daily cap.
    pub daily: Reached,
    /// Submissions whose signer and nonce one journal row decided.
    pub retries: Reached,
    /// Replies and sweeps that a receipt's acceptance deadline decided.
    pub window: Reached,
    /// Replies by the checks that decided them, and what is no reply any more.
    pub replied: Reached,
    /// The same as the reader and the writer were given it.
    pub coded: Reached,
    /// Records that name a closed wallet.
    pub closed: Reached,
    /// Closes by what is left in the wallet.
    pub closing: Reached,
    /// What closed wallets take part in.
    pub departed: Reached,
    /// What looking up wallets found.
    pub lookups: Reached,
    /// What replays of recordings came to. The entries replayed are not among the submissions.
    pub replays: Replays,
    /// What reports came to. Nor are the entries added to them.
    pub reports: Reports,
    /// What conversions of old recordings came to. Nor are their entries.
    pub conversions: Conversions,
}

impl Default for Tally {
    fn default() -> Tally {
        Tally {
            counts: [[0; LAST_ANSWER + 1]; OPERATIONS + 1],
            submissions: 0,
            on_largest: 0,
            other_calls: 0,
            daily: daily::none(),
            retries: retries::none(),
            window: window::none(),
            replied: replied::none(),
            coded: coded::none(),
            closed: closed::none(),
            closing: closing::none(),
            departed: departed::none(),
            lookups: lookups::none(),
            replays: Replays::default(),
            reports: Reports::default(),
            conversions: Conversions::default(),
        }
    }
}

/// The operations that an answer is given for, as the rules list them. Any number but those of an
/// operation is answered 1, 2 or 3.
fn operations_of(answer: usize) -> &'static [usize] {
    match answer {
        0 | 4 => &[1, 2, 3, 4, 5, 6, 7, 9, 10, 11, 12],
        1 | 2 | 3 => &[0, 1, 2, 3, 4, 5, 6, 7, 8, 9, 10, 11, 12],
        5 => &[1, 2, 3, 4, 5, 6, 7, 9],
        6 | 8 | 9 | 10 | 11 | 40 => &[1, 2, 3, 4, 5, 6, 7, 10, 11, 12],
        7 => &[1, 10, 11, 12],
        12 => &[1, 2, 3, 9, 11],
        13 | 14 | 17 | 18 | 19 => &[2, 3],
        15 => &[1, 2, 3, 6],
        16 => &[10, 11, 12],
        43 => &[1, 2, 3, 6, 10, 11, 12],
        42 => &[12],
        20 | 21 | 38 => &[3],
        22 | 23 | 24 | 25 | 26 | 30 | 31 | 39 => &[6],
        27 | 29 => &[4, 5, 6],
        28 => &[4, 5],
        32 | 33 | 34 | 35 | 41 => &[7],
        36 => &[1],
        37 => &[1, 2, 3],
        _ => &[],
    }
}

impl Tally {
    /// Counts one submission.
    pub fn count(&mut self, record: &[u8], answer: u64) {
        let operation = record.get(2).map_or(0, |&byte| usize::from(byte));
        let row = if operation <= OPERATIONS {
            operation
        } else {
            0
        };
        self.counts[row][answer as usize] += 1;
        self.submissions += 1;
    }

    /// How many submissions were counted.
    pub fn submissions(&self) -> u64 {
        self.submissions
    }

    /// How often this answer was given.
    pub fn of_answer(&self, answer: usize) -> u64 {
        self.counts.iter().map(|row| row[answer]).sum()
    }

    /// The pairs of an operation and an answer that the rules allow and that were not reached.
    pub fn missing(&self) -> Vec<(usize, usize)> {
        let allowed = (0..=LAST_ANSWER)
            .flat_map(|answer| operations_of(answer).iter().map(move |&op| (op, answer)));
        allowed
            .filter(|&(op, answer)| self.counts[op][answer] == 0)
            .collect()
    }

    /// The pairs that were reached though the rules do not allow them.
    pub fn forbidden(&self) -> Vec<(usize, usize)> {
        let all = (0..=LAST_ANSWER).flat_map(|answer| (0..=OPERATIONS).map(move |op| (op, answer)));
        all.filter(|&(op, answer)| {
            self.counts[op][answer] != 0 && !operations_of(answer).contains(&op)
        })
        .collect()
    }

    /// What submissions and lookups were decided by, each kind with what a run must come to.
    pub fn ways(&self) -> [&Reached; 9] {
        [
            &self.daily,
            &self.retries,
            &self.window,
            &self.replied,
            &self.coded,
            &self.closed,
            &self.closing,
            &self.departed,
            &self.lookups,
        ]
    }

    /// Adds another tally to this one.
    pub fn add(&mut self, other: &Tally) {
        for (row, more) in self.counts.iter_mut().zip(&other.counts) {
            for (count, extra) in row.iter_mut().zip(more) {
                *count += extra;
            }
        }
        self.submissions += other.submissions;
        self.on_largest += other.on_largest;
        self.other_calls += other.other_calls;
        self.daily.add(&other.daily);
        self.retries.add(&other.retries);
        self.window.add(&other.window);
        self.replied.add(&other.replied);
        self.coded.add(&other.coded);
        self.closed.add(&other.closed);
        self.closing.add(&other.closing);
        self.departed.add(&other.departed);
        self.lookups.add(&other.lookups);
        self.replays.add(&other.replays);
        self.reports.add(&other.reports);
        self.conversions.add(&other.conversions);
    }
}

impl fmt::Display for Tally {
    fn fmt(&self, f: &mut fmt::Formatter<'_>) -> fmt::Result {
        writeln!(
            f,
            "{} submissions, {} other calls, no difference",
            self.submissions, self.other_calls
        )?;
        let (settled, sweeps) = (self.of_answer(0), self.counts[SWEEP][0]);
        let share = 100.0 * settled as f64 / self.submissions.max(1) as f64;
        writeln!(
            f,
            "{settled} settled ({share:.1} %), of those {sweeps} sweeps; {} on the largest tables",
            self.on_largest
        )?;
        writeln!(f, "answer: times given (by operation)")?;
        for answer in 0..=LAST_ANSWER {
            write!(f, "{answer:>4}: {:>9} (", self.of_answer(answer))?;
            let mut comma = "";
            for (operation, row) in self.counts.iter().enumerate() {
                if row[answer] != 0 {
                    write!(f, "{comma}{operation}: {}", row[answer])?;
                    comma = ", ";
                }
            }
            writeln!(f, ")")?;
        }
        let missing = self.missing();
        if missing.is_empty() {
            writeln!(
                f,
                "every operation got every answer that the rules list for it"
            )?;
        } else {
            writeln!(f, "not reached (operation, answer): {missing:?}")?;
        }
        for ways in self.ways() {
            writeln!(f, "{ways}")?;
        }
        writeln!(f, "{}", self.replays)?;
        writeln!(f, "{}", self.reports)?;
        write!(f, "{}", self.conversions)
    }
}
