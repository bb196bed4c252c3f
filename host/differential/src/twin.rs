//! Both programs side by side on the same tables.

use std::fmt;
use std::panic::{catch_unwind, AssertUnwindSafe};

use milebeacon::ffi::{Told, Verdict};
use milebeacon::{ffi, Sizes, Tables};
use second::Added;

use crate::closed;
use crate::closing;
use crate::daily;
use crate::departed;
use crate::replay::verdict;
use crate::replied;
use crate::report::twice::{told, Twice};
use crate::retries;
use crate::tally::Tally;
use crate::window;

/// Five tables that a test owns.
pub type World = Tables<Vec<u64>>;

/// The names of the five tables, in order.
pub const TABLE_NAMES: [&str; 5] = ["header", "wallets", "escrows", "receipts", "journal"];

/// The words of one row of each table.
pub const ROW_WORDS: [usize; 5] = [8, 6, 8, 14, 8];

/// What no submission may come to, though both programs agree on it.
const NEVER: [&str; 7] = [
    window::NEVER,
    replied::NEVER[0],
    replied::NEVER[1],
    replied::NEVER[2],
    closed::NEVER,
    departed::NEVER[0],
    departed::NEVER[1],
];

/// What the two programs did not agree on.
#[derive(Clone, Debug, PartialEq, Eq)]
pub struct Difference(pub String);

impl fmt::Display for Difference {
    fn fmt(&self, f: &mut fmt::Formatter<'_>) -> fmt::Result {
        f.write_str(&self.0)
    }
}

/// The same or a difference.
pub fn same<T: PartialEq + fmt::Debug>(what: &str, core: T, second: T) -> Result<T, Difference> {
    if core == second {
        Ok(core)
    } else {
        Err(Difference(format!(
            "{what}: the core has {core:?}, the second program {second:?}"
        )))
    }
}

/// The five tables, one after another.
pub fn slices(world: &World) -> [&[u64]; 5] {
    [
        &world.header,
        &world.wallets,
        &world.escrows,
        &world.receipts,
        &world.journal,
    ]
}

/// The same, to be changed.
pub fn slices_mut(world: &mut World) -> [&mut Vec<u64>; 5] {
    [
        &mut world.header,
        &mut world.wallets,
        &mut world.escrows,
        &mut world.receipts,
        &mut world.journal,
    ]
}

/// Whether each table has the most rows that it may have.
fn is_largest(world: &World) -> bool {
    let most = Sizes::LARGEST;
    let rows = [1, most.wallets, most.escrows, most.receipts, most.journal];
    let mut tables = slices(world).into_iter().zip(ROW_WORDS).zip(rows);
    tables.all(|((table, words), rows)| table.len() == words * rows)
}

/// The tables as the second program is lent them.
pub fn lent(world: &mut World) -> second::Tables<'_> {
    second::Tables {
        header: &mut world.header,
        wallets: &mut world.wallets,
        escrows: &mut world.escrows,
        receipts: &mut world.receipts,
        journal: &mut world.journal,
    }
}

/// The first word in which two worlds differ.
pub fn first_difference(core: &World, second: &World) -> Option<Difference> {
    let tables = slices(core)
        .into_iter()
        .zip(slices(second))
        .zip(TABLE_NAMES)
        .zip(ROW_WORDS);
    for (((one, other), name), words) in tables {
        if one == other {
            continue;
        }
        let place = one
            .iter()
            .zip(other)
            .position(|(a, b)| a != b)
            .unwrap_or(one.len());
        return Some(Difference(format!(
            "{name}, row {}, word {}: the core leaves {:?}, the second program {:?}",
            place / words + 1,
            place % words + 1,
            one.get(place),
            other.get(place)
        )));
    }
    None
}

/// What a ledger began as.
#[derive(Clone, Copy, Debug, PartialEq, Eq)]
pub enum Began {
    /// Started afresh: submissions wrote all that is written.
    Afresh,
    /// Lent as it stood.
    Lent,
}

impl fmt::Display for Began {
    fn fmt(&self, f: &mut fmt::Formatter<'_>) -> fmt::Result {
        f.write_str(match self {
            Began::Afresh => "a ledger begun afresh",
            Began::Lent => "a lent ledger",
        })
    }
}

/// A world twice, once for each program.
#[derive(Clone, Debug)]
pub struct Twin {
    core: World,
    second: World,
    began: Began,
}

impl Twin {
    /// Both begin with this world.
    pub fn new(world: World) -> Twin {
        Twin {
            second: world.clone(),
            core: world,
            began: Began::Lent,
        }
    }

    /// The world; both are equal whenever no difference was found.
    pub fn world(&self) -> &World {
        &self.core
    }

    /// Submits to both, and compares number, word and every word of the tables.
    pub fn submit(&mut self, record: &[u8], tally: &mut Tally) -> Result<(u64, u64), Difference> {
        let lent_record = record.to_vec();
        let answer = ffi::submit(self.core.as_mut(), &lent_record);
        if lent_record != record {
            return Err(Difference("the core has changed the record".to_owned()));
        }
        // the second program's tables are still as they were before the call
        let paid = daily::decided(&self.second, record, answer.number);
        let tried = retries::decided(&self.second, record, answer.number);
        let timed = window::decided(&self.second, record, answer.number, self.began);
        let named = closed::decided(&self.second, record, answer.number);
        let closings = closing::decided(&self.second, record, answer.number, self.began);
        let (before, after) = (&self.second, &self.core);
        let departed = departed::decided(before, after, record, answer.number, self.began);
        let replied = replied::decided(before, after, record, answer.number);
        let second = guarded(|| second::submit(&mut lent(&mut self.second), record))?;
        let answer = same("answer and word", (answer.number, answer.word), second)?;
        self.compare()?;
        let mut ways = timed.iter().chain(&named).chain(&departed).chain(&replied);
        if let Some(way) = ways.find(|way| NEVER.contains(&way.as_str())) {
            return Err(Difference(format!("{way}: this must not be")));
        }
        tally.count(record, answer.0);
        tally.daily.count(paid);
        tally.retries.count(tried);
        tally.window.count(timed);
        tally.replied.count(replied);
        tally.closed.count(named);
        tally.closing.count(closings);
        tally.departed.count(departed);
        tally.on_largest += u64::from(is_largest(&self.core));
        Ok(answer)
    }

    /// Starts both afresh, and compares.
    pub fn fresh(&mut self, tally: &mut Tally) -> Result<u64, Difference> {
        let core = ffi::fresh(self.core.as_mut());
        let second = guarded(|| second::fresh(&mut lent(&mut self.second)))?;
        let answer = same("answer to a fresh start", core, second)?;
        self.compare()?;
        if answer == 0 {
            self.began = Began::Afresh;
        }
        tally.other_calls += 1;
        Ok(answer)
    }

    /// Replays with both, and compares the verdict and every word of the tables.
    pub fn replay(&mut self, recording: &[u8]) -> Result<Verdict, Difference> {
        let lent_recording = recording.to_vec();
        let core = ffi::replay(self.core.as_mut(), &lent_recording);
        if lent_recording != recording {
            return Err(Difference("the core has changed the recording".to_owned()));
        }
        let second = guarded(|| second::replay(&mut lent(&mut self.second), recording))?;
        let found = same("what a replay finds", core, verdict(second))?;
        self.compare()?;
        Ok(found)
    }

    /// Adds to a report with both, and compares what is told, the report and every word of the tables.
    pub fn report(&mut self, recording: &[u8], report: &mut Twice) -> Result<Told, Difference> {
        let had_stopped = report.has_stopped();
        let lent_recording = recording.to_vec();
        let core = report.add_core(self.core.as_mut(), &lent_recording);
        if lent_recording != recording {
            return Err(Difference("the core has changed the recording".to_owned()));
        }
        let added = guarded(|| report.add_second(&mut lent(&mut self.second), recording))?;
        let stops = !had_stopped && report.has_stopped();
        same("what is told", core, told(added))?;
        same(
            "whether it stops",
            stops,
            matches!(added, Added::Stopped { .. }),
        )?;
        report.compare()?;
        self.compare()?;
        Ok(core)
    }

    fn compare(&self) -> Result<(), Difference> {
        first_difference(&self.core, &self.second).map_or(Ok(()), Err)
    }
}

/// A panic of the second program is a difference too: the core never stops short.
pub(crate) fn guarded<T>(call: impl FnOnce() -> T) -> Result<T, Difference> {
    catch_unwind(AssertUnwindSafe(call))
        .map_err(|_| Difference("the second program panics".to_owned()))
}
