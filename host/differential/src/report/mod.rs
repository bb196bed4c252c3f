//! Months' reports by both programs: recordings added one after the other to one report.
//!
//! A [`Month`] holds no bytes and no numbers but says how to make them, as a [`Replay`] does: how
//! each recording is made and on which tables it is added, and with which of their entries the
//! figures that are brought along become full. So it can be made small, and what is left says what
//! matters.

pub mod brought;
pub mod counts;
pub mod days;
pub mod gains;
pub mod rounds;
pub mod shrink;
pub mod twice;
mod wanted;

use milebeacon::ffi::Told;

use crate::replay::Replay;
use crate::tally::Tally;
use crate::twin::{Difference, Twin, World};

use brought::Brought;
use counts::Call;
use gains::{gains, Gain};

/// A recording that is added to a report.
#[derive(Clone, Debug, PartialEq, Eq)]
pub struct Part {
    /// The recording, and the tables that are lent for it.
    pub replay: Replay,
    /// Whether those of the call before are lent instead, as it has left them.
    pub left: bool,
}

/// A report and the recordings that are added to it.
#[derive(Clone, Debug, PartialEq, Eq)]
pub struct Month {
    /// What it is before.
    pub brought: Brought,
    /// What is added.
    pub parts: Vec<Part>,
}

/// The bytes of a recording, the tables, and what the recording's entries add; nothing is known of
/// those if the tables have a wrong length.
#[derive(Clone, Debug)]
pub struct Made {
    /// Entry after entry.
    pub bytes: Vec<u8>,
    /// The tables, or some of their lengths if they are those of the call before.
    pub tables: World,
    /// What each whole entry adds.
    pub gains: Option<Vec<Gain>>,
}

/// Makes the recordings.
pub fn made(parts: &[Part]) -> Result<Vec<Made>, Difference> {
    let mut all: Vec<Made> = Vec::new();
    for part in parts {
        let entries = part.replay.entries()?;
        let bytes = part.replay.recording(&entries)?.bytes;
        let tables = match all.last() {
            Some(before) if part.left => before.tables.clone(),
            _ => part.replay.tables(),
        };
        let gains = gains(&tables, &bytes);
        all.push(Made {
            bytes,
            tables,
            gains,
        });
    }
    Ok(all)
}

/// What all entries add, one after another.
pub fn all_gains(made: &[Made]) -> Vec<&Gain> {
    made.iter().flat_map(|made| &made.gains).flatten().collect()
}

impl Month {
    /// Makes the recordings, and adds them with both.
    pub fn compare(&self, tally: &mut Tally) -> Result<(), Difference> {
        self.compare_made(&made(&self.parts)?, tally)
    }

    /// Adds with both what was made. They must agree after each call on what it told, on every number
    /// of the report and on every word of the tables, and come to what is known beforehand.
    pub fn compare_made(&self, made: &[Made], tally: &mut Tally) -> Result<(), Difference> {
        let mut report = self.brought.report(&all_gains(made));
        let mut lent: Option<Twin> = None;
        let mut earlier = 0;
        for (number, (part, made)) in (1..).zip(self.parts.iter().zip(made)) {
            let mut twin = match lent {
                Some(left) if part.left => left,
                _ => Twin::new(made.tables.clone()),
            };
            let call = Call {
                part,
                made,
                before: report.clone(),
                earlier,
            };
            let tables = twin.world().clone();
            let told = twin
                .report(&made.bytes, &mut report)
                .and_then(|told| {
                    let unchanged = *twin.world() == tables;
                    call.meant(&report, told, unchanged).map(|()| told)
                })
                .map_err(|Difference(what)| Difference(format!("recording {number}: {what}")))?;
            tally.reports.count(&call, &report, told);
            earlier += told.entries;
            lent = Some(twin);
        }
        tally.reports.reports += 1;
        Ok(())
    }
}

impl Call<'_> {
    /// Whether the call came to what is known beforehand.
    fn meant(
        &self,
        after: &twice::Twice,
        told: Told,
        tables_unchanged: bool,
    ) -> Result<(), Difference> {
        let stays = |meant: Told| {
            if told == meant && *after == self.before && tables_unchanged {
                Ok(())
            } else {
                Err(Difference(format!(
                    "both programs tell {told:?} or change something where {meant:?} was meant"
                )))
            }
        };
        let nothing = |number| Told { number, entries: 0 };
        if after.row_no_longer_used() != self.before.row_no_longer_used() {
            return Err(Difference("both programs count in row 8".to_owned()));
        }
        match &self.made.gains {
            None => stays(nothing(1)),
            Some(_) if self.before.has_stopped() => stays(nothing(0)),
            Some(gains) if told.number == 0 => after.meant(&self.before, gains, told),
            Some(_) => Err(Difference(
                "both programs refuse tables of right lengths".to_owned(),
            )),
        }
    }
}
