//! What replays came to.

use std::collections::BTreeMap;
use std::fmt;

use milebeacon::ffi::{Verdict, ALL_AGREE, CUT_SHORT, DISAGREES};
use milebeacon::Sizes;
use second::ENTRY_BYTES;

use super::lent::On;
use super::recording::{By, Change};
use super::Replay;
use crate::history::Begin;
use crate::tally::LAST_ANSWER;
use crate::twin::TABLE_NAMES;

/// What a run must come to, each at least once, and how it is told.
const WANTED: [&str; 25] = [
    "all agree",
    "all agree, nothing recorded",
    "all agree, refusals only",
    "all agree, a record changed all the same",
    "cut short",
    "cut short, no whole entry",
    "disagrees",
    "disagrees, by the number only",
    "disagrees, by the word only",
    "disagrees, by number and word",
    "disagrees, by a number that no answer has",
    "disagrees, by a changed record",
    "disagrees, before a cut end",
    "disagrees, on other sizes",
    "disagrees, recorded on a ledger in use",
    "replayed on tables in use",
    "replayed on the program's sizes",
    "replayed on the largest tables",
    "replayed what the second program recorded",
    "replayed more entries than a byte can count",
    "wrong length: header",
    "wrong length: wallets",
    "wrong length: escrows",
    "wrong length: receipts",
    "wrong length: journal",
];

/// Counts of replays.
#[derive(Clone, Debug, Default)]
pub struct Replays {
    recordings: u64,
    entries: u64,
    reached: BTreeMap<String, u64>,
    /// By the bytes kept of the last entry, of what was found cut short.
    cuts: BTreeMap<usize, u64>,
}

impl Replays {
    /// Counts one replay and what it found.
    pub fn count(&mut self, replay: &Replay, found: &Verdict) {
        self.recordings += 1;
        self.entries += found.replayed;
        for what in reached(replay, found) {
            *self.reached.entry(what).or_insert(0) += 1;
        }
        if let (Change::Cut(kept), CUT_SHORT) = (replay.change, found.finding) {
            *self.cuts.entry(kept).or_insert(0) += 1;
        }
    }

    /// What was not reached.
    pub fn missing(&self) -> Vec<String> {
        let wanted = WANTED.iter().map(|&what| what.to_owned());
        let missing = wanted.filter(|what| !self.reached.contains_key(what));
        let cuts = (1..ENTRY_BYTES).filter(|kept| !self.cuts.contains_key(kept));
        let cuts = cuts.map(|kept| format!("cut short, {kept} bytes kept"));
        missing.chain(cuts).collect()
    }

    /// Adds other counts to these.
    pub fn add(&mut self, other: &Replays) {
        self.recordings += other.recordings;
        self.entries += other.entries;
        for (what, times) in &other.reached {
            *self.reached.entry(what.clone()).or_insert(0) += times;
        }
        for (&kept, times) in &other.cuts {
            *self.cuts.entry(kept).or_insert(0) += times;
        }
    }
}

/// All that one replay came to.
fn reached(replay: &Replay, found: &Verdict) -> Vec<String> {
    let change = replay.change;
    let finding = match (found.number, found.finding) {
        (0, ALL_AGREE) => "all agree",
        (0, CUT_SHORT) => "cut short",
        (0, DISAGREES) => "disagrees",
        (0, other) => return vec![format!("finding {other}")],
        _ => "wrong length",
    };
    if let (On::Length(table, _), "wrong length") = (replay.on, finding) {
        return vec![format!("{finding}: {}", TABLE_NAMES[table])];
    }
    let (recorded, answered) = (found.recorded, found.answered);
    let also = [
        (
            found.replayed == 0 && finding == "all agree",
            "nothing recorded",
        ),
        (
            found.replayed == 0 && finding == "cut short",
            "no whole entry",
        ),
        (
            found.replayed != 0 && change == Change::Refusals,
            "refusals only",
        ),
        (
            change == Change::Record && finding == "all agree",
            "a record changed all the same",
        ),
        (
            change == Change::Record && finding == "disagrees",
            "by a changed record",
        ),
        (
            recorded.number != answered.number && recorded.word == answered.word,
            "by the number only",
        ),
        (
            recorded.number == answered.number && recorded.word != answered.word,
            "by the word only",
        ),
        (
            recorded.number != answered.number && recorded.word != answered.word,
            "by number and word",
        ),
        (
            recorded.number > LAST_ANSWER as u64,
            "by a number that no answer has",
        ),
        (change == Change::WordThenCut, "before a cut end"),
        (replay.on == On::OtherSizes, "on other sizes"),
        (
            replay.history.begin != Begin::Fresh,
            "recorded on a ledger in use",
        ),
    ];
    // other tables are not of the recording's sizes
    let sizes = match replay.on {
        On::Words | On::InUse => Some(replay.history.sizes),
        On::OtherSizes | On::Length(..) => None,
    };
    let replayed = [
        (replay.on == On::InUse, "on tables in use"),
        (sizes == Some(Sizes::PROGRAM), "on the program's sizes"),
        (sizes == Some(Sizes::LARGEST), "on the largest tables"),
        (replay.by == By::Second, "what the second program recorded"),
        (found.replayed > 255, "more entries than a byte can count"),
    ];
    let also = also.into_iter().filter(|(holds, _)| *holds);
    let replayed = replayed
        .into_iter()
        .filter(|(holds, _)| *holds && found.replayed != 0);
    let mut all = vec![finding.to_owned()];
    all.extend(also.map(|(_, what)| format!("{finding}, {what}")));
    all.extend(replayed.map(|(_, what)| format!("replayed {what}")));
    all
}

impl fmt::Display for Replays {
    fn fmt(&self, f: &mut fmt::Formatter<'_>) -> fmt::Result {
        let (recordings, entries) = (self.recordings, self.entries);
        writeln!(
            f,
            "{recordings} recordings replayed, {entries} entries of them"
        )?;
        for (what, times) in &self.reached {
            writeln!(f, "{times:>9} {what}")?;
        }
        write!(f, "{:>9} of 116 lengths of a cut entry", self.cuts.len())?;
        let missing = self.missing();
        if missing.is_empty() {
            Ok(())
        } else {
            write!(f, "\nnot reached: {missing:?}")
        }
    }
}
