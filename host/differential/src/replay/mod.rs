//! Replays of recordings by both programs, on the same tables.
//!
//! A [`Replay`] holds no bytes but says how to make them: a history whose answers are recorded, a
//! change of the recording, and the tables to replay it on. So it can be made small as a history
//! can, and what is left says what matters.

pub mod counts;
pub mod lent;
pub mod recording;
pub mod rounds;
pub mod shrink;

use milebeacon::ffi::{Answer, Verdict, ALL_AGREE, CUT_SHORT, DISAGREES};
use second::Found;

use crate::dice::Dice;
use crate::history::{Begin, History};
use crate::tally::Tally;
use crate::twin::{Difference, Twin, World};

use lent::On;
use recording::{recorded, By, Change, Entry, Recording};

/// A replay.
#[derive(Clone, Debug, PartialEq, Eq)]
pub struct Replay {
    /// What is recorded.
    pub history: History,
    /// Whose answers.
    pub by: By,
    /// How the recording is changed.
    pub change: Change,
    /// In which entry, counted from 0.
    pub place: usize,
    /// On which tables it is replayed.
    pub on: On,
    /// Decides on the changed byte, and on the words of the tables.
    pub seed: u64,
}

/// What the second program finds, as the core says it.
pub fn verdict(found: Found) -> Verdict {
    let answer = |(number, word)| Answer { number, word };
    let plain = |number, finding, replayed| Verdict {
        number,
        finding,
        replayed,
        recorded: answer((0, 0)),
        answered: answer((0, 0)),
    };
    match found {
        Found::WrongLength => plain(1, 0, 0),
        Found::AllAgree(entries) => plain(0, ALL_AGREE, entries),
        Found::CutShort(whole) => plain(0, CUT_SHORT, whole),
        Found::Disagrees {
            entry,
            recorded,
            answered,
        } => Verdict {
            recorded: answer(recorded),
            answered: answer(answered),
            ..plain(0, DISAGREES, entry)
        },
    }
}

impl Replay {
    /// What is recorded, before any change.
    pub fn entries(&self) -> Result<Vec<Entry>, Difference> {
        recorded(&self.history, self.by)
    }

    /// The recording of these entries with its change.
    pub fn recording(&self, entries: &[Entry]) -> Result<Recording, Difference> {
        let dice = &mut Dice::new(self.seed);
        let (sizes, by) = (self.history.sizes, self.by);
        Recording::changed(entries, sizes, by, self.change, self.place, dice)
    }

    /// The tables before the replay.
    pub fn tables(&self) -> World {
        self.on
            .tables(self.history.sizes, &mut Dice::new(!self.seed))
    }

    /// Records, and replays with both.
    pub fn compare(&self, tally: &mut Tally) -> Result<Verdict, Difference> {
        self.compare_recorded(&self.entries()?, tally)
    }

    /// Replays with both what was recorded. They must agree on the verdict and on every word of the
    /// tables, and find what is known beforehand.
    pub fn compare_recorded(
        &self,
        entries: &[Entry],
        tally: &mut Tally,
    ) -> Result<Verdict, Difference> {
        let recording = self.recording(entries)?;
        let tables = self.tables();
        let mut twin = Twin::new(tables.clone());
        let found = twin.replay(&recording.bytes)?;
        if let Some(meant) = self.meant(&recording).map(verdict) {
            if found != meant {
                return Err(Difference(format!(
                    "both programs find {found:?} where {meant:?} was meant"
                )));
            }
        }
        if found.number != 0 && *twin.world() != tables {
            return Err(Difference(
                "both programs change tables of a wrong length".to_owned(),
            ));
        }
        tally.replays.count(self, &found);
        Ok(found)
    }

    /// What must be found, where that is known.
    pub(crate) fn meant(&self, recording: &Recording) -> Option<Found> {
        match self.on {
            On::Length(_, length) if length.is_wrong() => Some(Found::WrongLength),
            On::Words | On::InUse if self.history.begin == Begin::Fresh => recording.meant,
            // of another ledger or other sizes the first entries may disagree
            _ => None,
        }
    }
}
