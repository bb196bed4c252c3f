//! What reports came to.

use std::collections::BTreeMap;
use std::fmt;

use milebeacon::ffi::Told;
use milebeacon::Sizes;
use second::ENTRY_BYTES;

use super::gains::{Gain, CELL, FIGURES, NO_LONGER};
use super::twice::Twice;
use super::wanted::WANTED;
use super::{Made, Part};
use crate::damage::MOST_ROWS;
use crate::history::Begin;
use crate::replay::lent::On;
use crate::replay::recording::Change;
use crate::twin::{slices, World, ROW_WORDS, TABLE_NAMES};

/// Counts of reports.
#[derive(Clone, Debug, Default)]
pub struct Reports {
    /// How many reports there were.
    pub reports: u64,
    recordings: u64,
    entries: u64,
    reached: BTreeMap<String, u64>,
    /// By the bytes kept of the last entry, of what was counted up to it.
    cuts: BTreeMap<usize, u64>,
}

/// A call that adds a recording to a report.
pub struct Call<'a> {
    /// The recording.
    pub part: &'a Part,
    /// Its bytes, and what its entries add.
    pub made: &'a Made,
    /// The report before the call.
    pub before: Twice,
    /// How many entries earlier calls of the month have counted.
    pub earlier: u64,
}

impl Reports {
    /// Counts one call.
    pub fn count(&mut self, call: &Call<'_>, after: &Twice, told: Told) {
        self.recordings += 1;
        self.entries += told.entries;
        for what in call.reached(after, told) {
            *self.reached.entry(what).or_insert(0) += 1;
        }
        let kept = call.made.bytes.len() % ENTRY_BYTES;
        if kept != 0 && told.number == 0 && !after.has_stopped() {
            *self.cuts.entry(kept).or_insert(0) += 1;
        }
    }

    /// What was not reached.
    pub fn missing(&self) -> Vec<String> {
        let wanted = WANTED.iter().map(|&what| what.to_owned());
        let missing = wanted.filter(|what| !self.reached.contains_key(what));
        let cuts = (1..ENTRY_BYTES).filter(|kept| !self.cuts.contains_key(kept));
        let cuts = cuts.map(|kept| format!("all counted, {kept} bytes kept of a cut entry"));
        missing.chain(cuts).collect()
    }

    /// Adds other counts to these.
    pub fn add(&mut self, other: &Reports) {
        self.reports += other.reports;
        self.recordings += other.recordings;
        self.entries += other.entries;
        for (what, times) in &other.reached {
            *self.reached.entry(what.clone()).or_insert(0) += times;
        }
        for (&kept, times) in &other.cuts {
            *self.cuts.entry(kept).or_insert(0) += times;
        }
    }
}

/// The first table whose length is wrong.
fn wrong_table(tables: &World) -> Option<&'static str> {
    let rows = slices(tables).into_iter().zip(ROW_WORDS).zip(MOST_ROWS);
    let wrong = rows.map(|((table, words), most)| {
        table.is_empty() || table.len() % words != 0 || table.len() / words > most
    });
    let wrong = wrong.zip(TABLE_NAMES).find(|(wrong, _)| *wrong);
    wrong.map(|(_, name)| name)
}

impl Call<'_> {
    /// All that the call came to.
    fn reached(&self, after: &Twice, told: Told) -> Vec<String> {
        let had_stopped = self.before.has_stopped();
        let gains = match &self.made.gains {
            None => {
                let table = wrong_table(&self.made.tables).unwrap_or("none");
                let mut all = vec![format!("wrong length: {table}")];
                if had_stopped {
                    all.push("had stopped, on tables of a wrong length".to_owned());
                }
                return all;
            }
            Some(gains) => gains,
        };
        if had_stopped {
            let mut all = vec!["had stopped".to_owned()];
            if self.earlier > 0 {
                all.push("had stopped in this month".to_owned());
            }
            return all;
        }
        let (counted, rest) = gains.split_at(told.entries as usize);
        let ways = counted.iter().flat_map(|gain| &gain.ways);
        let mut all: Vec<String> = ways.map(|way| format!("counted: {way}")).collect();
        all.extend(self.filled(after, told));
        if told.entries != 0 {
            all.extend(self.added());
        }
        match rest.first() {
            None => all.extend(self.all_counted(after, told)),
            Some(next) => all.extend(self.stopped(after, told, next, rest.len())),
        }
        all
    }

    /// The figures that are full after the call, but for the row that nothing is counted in.
    fn filled(&self, after: &Twice, told: Told) -> Vec<String> {
        let sums = (0..CELL).map(|figure| (figure, (0, 0)));
        let cells = after.cells().map(|(cell, _)| (CELL, cell));
        let cells = cells.filter(|&(_, (row, _))| row != NO_LONGER);
        let full = sums
            .chain(cells)
            .filter(|&(figure, cell)| after.figure(figure, cell) == u64::MAX);
        let full = full.filter_map(|(figure, cell)| {
            let named = after.named()[0] == figure as u64 + 1;
            if self.before.figure(figure, cell) != u64::MAX && !named {
                Some(format!("just 2^64 - 1: {}", FIGURES[figure]))
            } else {
                Some("full before and not raised".to_owned()).filter(|_| told.entries > 0 && !named)
            }
        });
        full.collect()
    }

    fn stopped(&self, after: &Twice, told: Told, next: &Gain, rest: usize) -> Vec<String> {
        let passing = after.passing(next);
        let names: Vec<&str> = passing.iter().map(|&figure| FIGURES[figure]).collect();
        let mut all = vec![format!("named: {}", names.first().unwrap_or(&"nothing"))];
        if names.len() > 1 {
            all.push(format!("would pass at once: {}", names.join(", ")));
        }
        let just = (0..FIGURES.len()).any(|figure| {
            let more = gain_of(next, figure);
            more != 0 && after.figure(figure, next.cell).checked_add(more) == Some(u64::MAX)
        });
        let also = [
            (just, "would not pass beside the one named, just full"),
            (told.entries == 0, "stopped before the first entry"),
            (rest == 1, "stopped before the last entry"),
            (self.earlier > 0, "stopped in a later recording"),
            (self.is_on(On::InUse), "stopped on tables in use"),
            (
                self.is_on_left(),
                "stopped on the tables of the call before",
            ),
        ];
        let also = also.into_iter().filter(|(holds, _)| *holds);
        all.extend(also.map(|(_, what)| what.to_owned()));
        all
    }

    fn all_counted(&self, after: &Twice, told: Told) -> Vec<String> {
        let some = told.entries != 0;
        let change = self.part.replay.change;
        let unused = after.row_no_longer_used();
        let also = [
            (some && self.earlier > 0, "after another recording"),
            (self.made.bytes.is_empty(), "nothing recorded"),
            (!some && !self.made.bytes.is_empty(), "no whole entry"),
            (some && change == Change::Refusals, "refusals only"),
            (some && change == Change::Record, "a record changed"),
            (told.entries > 255, "more entries than a byte can count"),
            (
                some && unused.iter().all(|&count| count == 0),
                "row 8 all zeros",
            ),
            (
                some && unused[3] == u64::MAX,
                "row 8 full in column 3 as brought along",
            ),
        ];
        let also = also.into_iter().filter(|(holds, _)| *holds);
        let mut all = vec!["all counted".to_owned()];
        all.extend(also.map(|(_, what)| format!("all counted, {what}")));
        all
    }

    /// On which tables something was counted.
    fn added(&self) -> Vec<String> {
        let history = &self.part.replay.history;
        // the tables of the call before, and other ones, are not of the recording's sizes
        let own = self.is_on(On::Words) || self.is_on(On::InUse);
        let sizes = Some(history.sizes).filter(|_| own);
        let on = [
            (self.is_on(On::InUse), "on tables in use"),
            (self.is_on_left(), "on the tables of the call before"),
            (self.is_on(On::OtherSizes), "on other sizes"),
            (sizes == Some(Sizes::PROGRAM), "on the program's sizes"),
            (sizes == Some(Sizes::LARGEST), "on the largest tables"),
            (
                history.begin != Begin::Fresh,
                "what was recorded on a ledger in use",
            ),
        ];
        let on = on.into_iter().filter(|(holds, _)| *holds);
        on.map(|(_, what)| format!("added {what}")).collect()
    }

    fn is_on(&self, on: On) -> bool {
        !self.part.left && self.part.replay.on == on
    }

    fn is_on_left(&self) -> bool {
        self.part.left && self.earlier > 0
    }
}

fn gain_of(gain: &Gain, figure: usize) -> u64 {
    gain.of(figure, gain.cell)
}

impl fmt::Display for Reports {
    fn fmt(&self, f: &mut fmt::Formatter<'_>) -> fmt::Result {
        let (reports, recordings, entries) = (self.reports, self.recordings, self.entries);
        writeln!(
            f,
            "{recordings} recordings added to {reports} reports, {entries} entries of them"
        )?;
        for (what, times) in &self.reached {
            writeln!(f, "{times:>9} {what}")?;
        }
        write!(f, "{:>9} of 116 lengths of a cut entry", self.cuts.len())?;
        let missing = self.missing();
        if missing.is_empty() {
            Ok(())
        } else {
            write!(f, "\nnot reached: {missing:?}")
        }
    }
}
