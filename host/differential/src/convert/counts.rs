//! What conversions came to.

use std::collections::BTreeMap;
use std::fmt;

use milebeacon::ffi::{ALL_AGREE, CUT_SHORT, DISAGREES};
use milebeacon::{Entries, RECORD_BYTES};
use second::{Form, ENTRY_BYTES};

use super::kinds::{converted, kind, KINDS};
use super::{tempting, Conversion};
use crate::history::Begin;
use crate::reached::Reached;
use crate::replay::lent::On;
use crate::replay::recording::Change;
use crate::replay::Replay;
use crate::shape::faults;
use crate::tally::LAST_ANSWER;

/// How often each kind of record must be converted, and each of the other ways come to.
const OF_EACH_KIND: u64 = 10;
const OF_EACH_WAY: u64 = 5;

/// What a run must come to besides the kinds of records.
const WAYS: [&str; 27] = [
    // entries that agree, before the conversion in the old form and after it today
    "accept answered 0",
    "accept answered 32",
    "accept answered 33",
    "accept answered 34",
    "accept answered 41",
    "dispute answered 0",
    "dispute answered 32",
    "dispute answered 33",
    "dispute answered 34",
    "dispute answered 41",
    "dispute answered 35",
    // what was recorded is not looked at
    "malformed, recorded as settled",
    "reply, recorded as malformed",
    "reply, recorded with a number that no answer has",
    "cut entry with all of a record that would change",
    "nothing recorded",
    "bytes by chance",
    "all agree",
    "all agree, with a reply that would disagree if it stayed",
    "all agree, with a dispute's journal row",
    "cut short",
    "disagrees",
    "disagrees, a record changed",
    "disagrees, recorded on a ledger in use",
    "wrong length",
    "replayed on tables in use",
    "replayed on other sizes",
];

fn wanted() -> Vec<&'static str> {
    WAYS.into_iter().chain(tempting::wanted()).collect()
}

/// Counts of conversions.
#[derive(Clone, Debug)]
pub struct Conversions {
    recordings: u64,
    entries: u64,
    /// Kinds of records.
    pub kinds: Reached,
    /// All else.
    pub ways: Reached,
    /// By the bytes of the cut entry.
    cuts: BTreeMap<usize, u64>,
}

impl Default for Conversions {
    fn default() -> Conversions {
        Conversions {
            recordings: 0,
            entries: 0,
            kinds: Reached::none("kinds of old records converted", &KINDS).at_least(OF_EACH_KIND),
            ways: Reached::none("what conversions came to", &wanted()).at_least(OF_EACH_WAY),
            cuts: BTreeMap::new(),
        }
    }
}

impl Conversions {
    /// How many recordings were converted.
    pub fn recordings(&self) -> u64 {
        self.recordings
    }

    /// Counts one conversion.
    pub fn count(&mut self, old: &[u8], came_to: &Conversion) {
        let entries = Entries::new(old);
        let cut = entries.cut();
        self.recordings += 1;
        self.entries += entries.len() as u64;
        let found = came_to.found;
        // all that were replayed agree, but for the last if it was found to disagree
        let agreeing = found.replayed - u64::from(found.finding == DISAGREES);
        for (place, entry) in (0..).zip(entries) {
            self.kinds.count(vec![kind(entry.record)]);
            let recorded = entry.recorded.number;
            self.ways.count(recorded_so(entry.record, recorded));
            if place < agreeing {
                self.ways.count(answered(entry.record, recorded));
            }
        }
        if !cut.is_empty() {
            *self.cuts.entry(cut.len()).or_insert(0) += 1;
        }
        self.ways.count(also(old, cut, came_to));
    }

    /// Counts what a recording was made and replayed on.
    pub fn count_replay(&mut self, replay: &Replay, came_to: &Conversion) {
        let found = came_to.found;
        let disagrees = found.finding == DISAGREES;
        let in_use = replay.history.begin != Begin::Fresh;
        self.ways.count(holding(&[
            (
                disagrees && replay.change == Change::Record,
                "disagrees, a record changed",
            ),
            (
                disagrees && in_use,
                "disagrees, recorded on a ledger in use",
            ),
            (
                replay.on == On::InUse && found.replayed != 0,
                "replayed on tables in use",
            ),
            (
                replay.on == On::OtherSizes && found.replayed != 0,
                "replayed on other sizes",
            ),
        ]));
    }

    /// Counts bytes that were never a recording.
    pub fn count_noise(&mut self, old: &[u8]) {
        self.ways
            .count(holding(&[(!old.is_empty(), "bytes by chance")]));
    }

    /// What was not reached.
    pub fn missing(&self) -> Vec<String> {
        let ways = self.kinds.missing().into_iter().chain(self.ways.missing());
        let ways = ways.map(str::to_owned);
        let cuts = (1..ENTRY_BYTES).filter(|kept| !self.cuts.contains_key(kept));
        let cuts = cuts.map(|kept| format!("{kept} bytes of a cut entry"));
        ways.chain(cuts).collect()
    }

    /// Adds other counts to these.
    pub fn add(&mut self, other: &Conversions) {
        self.recordings += other.recordings;
        self.entries += other.entries;
        self.kinds.add(&other.kinds);
        self.ways.add(&other.ways);
        for (&kept, times) in &other.cuts {
            *self.cuts.entry(kept).or_insert(0) += times;
        }
    }
}

fn holding(ways: &[(bool, &str)]) -> Vec<String> {
    let ways = ways.iter().filter(|(holds, _)| *holds);
    ways.map(|(_, way)| (*way).to_owned()).collect()
}

/// Whether a record of the old form is a reply, and which.
fn reply(record: &[u8]) -> Option<&'static str> {
    match (faults(Form::Old, record).is_empty(), record[2]) {
        (true, 7) => Some("accept"),
        (true, 8) => Some("dispute"),
        _ => None,
    }
}

/// What is told of a record by what was recorded with it, be that right or not.
fn recorded_so(record: &[u8], number: u8) -> Vec<String> {
    let is_reply = reply(record).is_some();
    let malformed = !faults(Form::Old, record).is_empty();
    holding(&[
        (malformed && number == 0, "malformed, recorded as settled"),
        (is_reply && number == 3, "reply, recorded as malformed"),
        (
            is_reply && usize::from(number) > LAST_ANSWER,
            "reply, recorded with a number that no answer has",
        ),
    ])
}

/// What is told of an entry that agrees.
fn answered(record: &[u8], number: u8) -> Vec<String> {
    let way = reply(record).map(|reply| format!("{reply} answered {number}"));
    way.into_iter().collect()
}

/// What is told of the whole.
fn also(old: &[u8], cut: &[u8], came_to: &Conversion) -> Vec<String> {
    let found = came_to.found;
    let would_change = |record: &[u8]| converted(record) != (record[2], record[3]);
    let (agree, short) = (found.finding == ALL_AGREE, found.finding == CUT_SHORT);
    holding(&[
        (old.is_empty(), "nothing recorded"),
        (
            cut.get(..RECORD_BYTES).map_or(false, would_change),
            "cut entry with all of a record that would change",
        ),
        (found.number != 0, "wrong length"),
        (agree, "all agree"),
        (short, "cut short"),
        (found.finding == DISAGREES, "disagrees"),
        (
            agree && came_to.unconverted.finding == DISAGREES,
            "all agree, with a reply that would disagree if it stayed",
        ),
        (
            agree && came_to.renumbered != 0,
            "all agree, with a dispute's journal row",
        ),
    ])
}

impl fmt::Display for Conversions {
    fn fmt(&self, f: &mut fmt::Formatter<'_>) -> fmt::Result {
        let (recordings, entries) = (self.recordings, self.entries);
        writeln!(
            f,
            "{recordings} recordings of the old form converted, {entries} entries of them"
        )?;
        writeln!(f, "{}\n{}", self.kinds, self.ways)?;
        write!(f, "{:>9} of 116 lengths of a cut entry", self.cuts.len())
    }
}
