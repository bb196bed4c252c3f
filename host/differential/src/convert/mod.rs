//! Recordings of the old form, in which an accept was operation 7 and a dispute operation 8, turned
//! into today's by both programs.
//!
//! The second program keeps the old form beside today's, so a recording can be made and replayed as
//! it would have been. Both converters must make the same of it, byte by byte; what they make must
//! be what its records are by their faults, worked out here once more; and replayed by both programs
//! it must find what the old one finds in the old form and leave the same tables, but that the
//! journal says 7 where it said 8.

pub mod counts;
pub mod kinds;
pub mod noise;
pub mod rounds;
pub mod shrink;
pub mod tempting;

use milebeacon::ffi::{self, Verdict};
use second::{Form, Found, ENTRY_BYTES};

use crate::replay::lent::On;
use crate::replay::recording::{Change, Entry};
use crate::replay::{verdict, Replay};
use crate::tally::Tally;
use crate::twin::{first_difference, guarded, lent, same, Difference, Twin, World, ROW_WORDS};

use kinds::converted;

/// The place of the operation in a journal row, and what it says of a reply today and of a dispute
/// before.
const OPERATION_WORD: usize = 2;
const REPLY: u64 = 7;
const OLD_DISPUTE: u64 = 8;
/// The word of the header that counts the journal rows.
const JOURNAL_ROWS: usize = 7;

/// What became of a recording.
#[derive(Clone, Debug)]
pub struct Conversion {
    /// What a replay of the converted recording finds, as of the old one in the old form.
    pub found: Verdict,
    /// What one of the old one as it stands would have found today.
    pub unconverted: Verdict,
    /// How many journal rows say 7 that say 8 in the old form.
    pub renumbered: usize,
}

/// Converts with both, and compares every byte.
pub fn convert(old: &[u8]) -> Result<Vec<u8>, Difference> {
    let mut core = old.to_vec();
    ffi::convert(&mut core);
    let mut second = old.to_vec();
    guarded(|| second::convert(&mut second))?;
    compare("the core", &core, "the second program", &second)?;
    Ok(core)
}

/// The first entry that two converted recordings differ in.
fn compare(one: &str, ones: &[u8], other: &str, others: &[u8]) -> Result<(), Difference> {
    same("length", ones.len(), others.len())?;
    let entries = ones.chunks(ENTRY_BYTES).zip(others.chunks(ENTRY_BYTES));
    for (number, (mine, its)) in (1..).zip(entries) {
        if let Some(place) = (0..mine.len()).find(|&place| mine[place] != its[place]) {
            return Err(Difference(format!(
                "entry {number}, byte {place}: {one} has {:#04x}, {other} {:#04x}",
                mine[place], its[place]
            )));
        }
    }
    Ok(())
}

/// What the old bytes must become by the faults of their records.
pub fn meant(old: &[u8]) -> Vec<u8> {
    let mut bytes = old.to_vec();
    for entry in bytes.chunks_exact_mut(ENTRY_BYTES) {
        (entry[2], entry[3]) = converted(&entry[..108]);
    }
    bytes
}

/// What is left in the old form, with the number of today in the rows of disputes; and how many those
/// are.
fn renumbered(mut left: World) -> (World, usize) {
    let written = left
        .header
        .get(JOURNAL_ROWS)
        .map_or(0, |&rows| rows as usize);
    let rows = left.journal.chunks_exact_mut(ROW_WORDS[4]).take(written);
    let mut disputes = 0;
    for row in rows.filter(|row| row[OPERATION_WORD] == OLD_DISPUTE) {
        row[OPERATION_WORD] = REPLY;
        disputes += 1;
    }
    (left, disputes)
}

/// Converts bytes with both, and replays them on these tables, before and after.
pub fn convert_and_replay(old: &[u8], tables: &World) -> Result<Conversion, Difference> {
    let new = convert(old)?;
    compare("both programs", &new, "what was meant", &meant(old))?;
    // once more, though nobody should
    convert(&new)?;
    replayed(old, &new, tables)
}

/// Replays an old recording in the old form, and what it was turned into with both programs of today.
pub fn replayed(old: &[u8], new: &[u8], tables: &World) -> Result<Conversion, Difference> {
    let mut left = tables.clone();
    let found = guarded(|| second::replay_in(Form::Old, &mut lent(&mut left), old))?;
    let mut twin = Twin::new(tables.clone());
    let today = twin.replay(new)?;
    same_found(today, found)?;
    let (left, renumbered) = match found {
        // nothing was replayed, and any words may stand in the tables
        Found::WrongLength => (left, 0),
        _ => renumbered(left),
    };
    if let Some(Difference(what)) = first_difference(twin.world(), &left) {
        return Err(Difference(format!(
            "replayed after the conversion, and in the old form: {what}"
        )));
    }
    let mut other = tables.clone();
    let unconverted = ffi::replay(other.as_mut(), old);
    Ok(Conversion {
        found: today,
        unconverted,
        renumbered,
    })
}

fn same_found(today: Verdict, found: Found) -> Result<(), Difference> {
    let old = verdict(found);
    if today == old {
        return Ok(());
    }
    Err(Difference(format!(
        "after the conversion a replay finds {today:?}, before it in the old form {old:?}"
    )))
}

/// Converts the recording of a [`Replay`] in the old form. What is known beforehand must be found.
pub fn compare_recorded(
    replay: &Replay,
    entries: &[Entry],
    tally: &mut Tally,
) -> Result<Conversion, Difference> {
    let recording = replay.recording(entries)?;
    let tables = replay.tables();
    let came_to = convert_and_replay(&recording.bytes, &tables)?;
    if let Some(meant) = replay.meant(&recording).map(verdict) {
        if came_to.found != meant {
            let found = came_to.found;
            return Err(Difference(format!(
                "both programs find {found:?} where {meant:?} was meant"
            )));
        }
    }
    tally.conversions.count(&recording.bytes, &came_to);
    tally.conversions.count_replay(replay, &came_to);
    if (replay.change, replay.on) == (Change::Nothing, On::Words) {
        let ways = tempting::tempted(&recording.bytes, &tables)?;
        tally.conversions.ways.count(ways);
    }
    Ok(came_to)
}

/// The same, recorded first.
pub fn compare_replay(replay: &Replay, tally: &mut Tally) -> Result<Conversion, Difference> {
    compare_recorded(replay, &replay.entries()?, tally)
}
