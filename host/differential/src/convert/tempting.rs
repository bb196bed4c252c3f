//! Entries that a wrong converter would have answered otherwise: what was malformed and looks like a
//! reply of today, and replies that look like another.

use milebeacon::{Entries, Record};
use second::Form;

use super::kinds::kind;
use crate::twin::{guarded, lent, Difference, World};

/// A kind of record, what a wrong converter would make of it, and how that would be answered today.
struct Tempting {
    kind: &'static str,
    wrong: fn(&mut Record),
    answer: u64,
    way: &'static str,
}

const TEMPTING: [Tempting; 6] = [
    Tempting {
        kind: "7 with bit 2",
        wrong: |_| {},
        answer: 0,
        way: "7 with bit 2, which would settle as an accept",
    },
    Tempting {
        kind: "7 with bit 3",
        wrong: |_| {},
        answer: 0,
        way: "7 with bit 3, which would settle as a dispute",
    },
    Tempting {
        kind: "8 with bit 2",
        wrong: |record| record[2] = 7,
        answer: 0,
        way: "8 with bit 2, which as a 7 would settle as an accept",
    },
    Tempting {
        kind: "accept, signed",
        wrong: |_| {},
        answer: 35,
        way: "accept, which without bit 2 would be answered 35",
    },
    Tempting {
        kind: "dispute with a reason, signed",
        wrong: |record| (record[2], record[3]) = (7, 0b0101),
        answer: 0,
        way: "dispute, which with bit 2 would settle as an accept",
    },
    Tempting {
        kind: "dispute without a reason, signed",
        wrong: |record| (record[2], record[3]) = (7, 0b0101),
        answer: 0,
        way: "dispute without a reason, which with bit 2 would settle as an accept",
    },
];

/// What a run must come to.
pub fn wanted() -> impl Iterator<Item = &'static str> {
    TEMPTING.iter().map(|tempting| tempting.way)
}

/// Those of the entries of an old recording, replayed in the old form on a fresh ledger of the lengths
/// of these tables.
pub fn tempted(old: &[u8], tables: &World) -> Result<Vec<String>, Difference> {
    let mut world = tables.clone();
    if guarded(|| second::fresh(&mut lent(&mut world)))? != 0 {
        return Ok(Vec::new());
    }
    let mut ways = Vec::new();
    for entry in Entries::new(old) {
        let kind = kind(entry.record);
        for tempting in TEMPTING.iter().filter(|tempting| tempting.kind == kind) {
            let mut record = *entry.record;
            (tempting.wrong)(&mut record);
            let mut other = world.clone();
            let (answer, _) = guarded(|| second::submit(&mut lent(&mut other), &record))?;
            if answer == tempting.answer {
                ways.push(tempting.way.to_owned());
            }
        }
        guarded(|| second::submit_in(Form::Old, &mut lent(&mut world), entry.record))?;
    }
    Ok(ways)
}
