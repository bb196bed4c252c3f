//! Recordings, made from histories, and changed.

use milebeacon::{ffi, Record, Sizes, Tables, RECORD_BYTES};
use second::{Form, Found, ENTRY_BYTES};

use crate::dice::Dice;
use crate::history::{Begin, History};
use crate::tally::LAST_ANSWER;
use crate::twin::{guarded, lent, Difference, World};

/// A record and what was answered to it.
#[derive(Clone, Copy, Debug, PartialEq, Eq)]
pub struct Entry {
    /// What was submitted.
    pub record: Record,
    /// The answer's number.
    pub number: u8,
    /// The answer word.
    pub word: u64,
}

impl Entry {
    fn new(record: Record, (number, word): (u64, u64)) -> Result<Entry, Difference> {
        let number = u8::try_from(number)
            .map_err(|_| Difference(format!("the answer {number} fits no byte")))?;
        Ok(Entry {
            record,
            number,
            word,
        })
    }

    fn answer(&self) -> (u64, u64) {
        (u64::from(self.number), self.word)
    }

    fn bytes(&self) -> [u8; ENTRY_BYTES] {
        second::entry(&self.record, self.number, self.word)
    }
}

/// Whose answers are recorded.
#[derive(Clone, Copy, Debug, PartialEq, Eq)]
pub enum By {
    /// The core's.
    Core,
    /// The second program's.
    Second,
    /// The second program's to records in the old form, which the core has not.
    SecondInOldForm,
}

impl By {
    /// The form of the records.
    pub fn form(self) -> Form {
        match self {
            By::Core | By::Second => Form::New,
            By::SecondInOldForm => Form::Old,
        }
    }

    fn fresh(self, world: &mut World) -> Result<u64, Difference> {
        match self {
            By::Core => Ok(ffi::fresh(world.as_mut())),
            By::Second | By::SecondInOldForm => guarded(|| second::fresh(&mut lent(world))),
        }
    }

    fn submit(self, world: &mut World, record: &[u8]) -> Result<(u64, u64), Difference> {
        match self {
            By::Core => {
                let answer = ffi::submit(world.as_mut(), record);
                Ok((answer.number, answer.word))
            }
            By::Second | By::SecondInOldForm => {
                guarded(|| second::submit_in(self.form(), &mut lent(world), record))
            }
        }
    }
}

/// What a history submits and how it is answered, without the records that are not 108 bytes long:
/// those fit in no entry, and change nothing.
pub fn recorded(history: &History, by: By) -> Result<Vec<Entry>, Difference> {
    let mut world = history.world();
    if history.begin == Begin::Fresh {
        by.fresh(&mut world)?;
    }
    let mut entries = Vec::new();
    let mut last = Vec::new();
    for step in &history.steps {
        last = step.record_in(by.form(), &world, &last);
        if let Ok(record) = Record::try_from(&last[..]) {
            entries.push(Entry::new(record, by.submit(&mut world, &record)?)?);
        }
    }
    Ok(entries)
}

/// More entries than a byte can count.
const MANY: usize = 300;

/// Those of the records that a fresh ledger of these sizes refuses, over and over: they leave it
/// fresh.
fn refused(entries: &[Entry], sizes: Sizes, by: By) -> Result<Vec<Entry>, Difference> {
    let mut world = Tables::zeros(sizes);
    let mut refusals: Vec<Entry> = Vec::new();
    for entry in entries {
        by.fresh(&mut world)?;
        let answer = by.submit(&mut world, &entry.record)?;
        if answer.0 != 0 {
            refusals.push(Entry::new(entry.record, answer)?);
        }
    }
    Ok(refusals.into_iter().cycle().take(MANY).collect())
}

/// How a recording is changed before it is replayed.
#[derive(Clone, Copy, Debug, PartialEq, Eq)]
pub enum Change {
    /// Not at all.
    Nothing,
    /// A byte of an entry's record is another.
    Record,
    /// An entry has another number, of those that answers have.
    Number,
    /// An entry has a number that no answer has.
    NumberAbove,
    /// A byte of an entry's word is another.
    Word,
    /// An entry has another word, and one is cut short at the end.
    WordThenCut,
    /// An entry is cut to so many bytes, 1 to 116, and there are none after it.
    Cut(usize),
    /// There are no entries.
    Empty,
    /// There are refusals only, the same over and over, more than a byte can count.
    Refusals,
}

/// The bytes of a recording, and what a replay must find on a fresh ledger of the same sizes where
/// that is known beforehand.
#[derive(Clone, Debug, PartialEq, Eq)]
pub struct Recording {
    /// Entry after entry.
    pub bytes: Vec<u8>,
    /// What must be found.
    pub meant: Option<Found>,
}

impl Recording {
    /// The bytes of these entries.
    fn of(entries: &[Entry]) -> Recording {
        let bytes: Vec<u8> = entries.iter().flat_map(Entry::bytes).collect();
        let meant = Some(Found::AllAgree(entries.len() as u64));
        Recording { bytes, meant }
    }

    /// The recording of these entries with a change. It is made in the entry at this place, counted
    /// from 0, or in the last if there are fewer; chance decides on the rest.
    pub fn changed(
        entries: &[Entry],
        sizes: Sizes,
        by: By,
        change: Change,
        place: usize,
        dice: &mut Dice,
    ) -> Result<Recording, Difference> {
        let place = place.min(entries.len().saturating_sub(1));
        Ok(match change {
            Change::Nothing => Recording::of(entries),
            Change::Empty => Recording::of(&[]),
            Change::Refusals => Recording::of(&refused(entries, sizes, by)?),
            Change::Cut(kept) => cut(entries, place, kept),
            Change::Record => damaged(entries, place, dice),
            Change::Number => disagreeing(entries, place, |entry| {
                let others = LAST_ANSWER as u64;
                let number = (u64::from(entry.number) + dice.between(1, others)) % (others + 1);
                entry.number = number as u8;
            }),
            Change::NumberAbove => disagreeing(entries, place, |entry| {
                entry.number = dice.between(LAST_ANSWER as u64 + 1, 255) as u8;
            }),
            Change::Word => disagreeing(entries, place, |entry| another_word(entry, dice)),
            Change::WordThenCut => {
                let mut recording = disagreeing(entries, place, |entry| another_word(entry, dice));
                if !recording.bytes.is_empty() {
                    let kept = dice.between(1, ENTRY_BYTES as u64 - 1) as usize;
                    let last = recording.bytes.len() - ENTRY_BYTES;
                    recording.bytes.extend_from_within(last..last + kept);
                }
                recording
            }
        })
    }
}

fn another_word(entry: &mut Entry, dice: &mut Dice) {
    entry.word ^= dice.between(1, 255) << (8 * dice.below(8));
}

/// With one entry changed so that it must be found, if there is one.
fn disagreeing(entries: &[Entry], place: usize, change: impl FnOnce(&mut Entry)) -> Recording {
    let mut changed = entries.to_vec();
    let found = changed.get_mut(place).map(|entry| {
        let answered = entry.answer();
        change(entry);
        Found::Disagrees {
            entry: place as u64 + 1,
            recorded: entry.answer(),
            answered,
        }
    });
    let recording = Recording::of(&changed);
    Recording {
        meant: found.or(recording.meant),
        ..recording
    }
}

/// With a byte of one record changed, which may be answered the same or not.
fn damaged(entries: &[Entry], place: usize, dice: &mut Dice) -> Recording {
    let mut changed = entries.to_vec();
    if let Some(entry) = changed.get_mut(place) {
        entry.record[dice.index(RECORD_BYTES)] ^= dice.between(1, 255) as u8;
    }
    Recording {
        meant: None,
        ..Recording::of(&changed)
    }
}

/// The entries before this place whole, and of the one there so many bytes; of zeros if there is
/// none.
fn cut(entries: &[Entry], place: usize, kept: usize) -> Recording {
    let next = entries.get(place).map_or([0; ENTRY_BYTES], Entry::bytes);
    let mut recording = Recording::of(&entries[..place]);
    recording.bytes.extend(&next[..kept]);
    recording.meant = Some(Found::CutShort(place as u64));
    recording
}
