//! Calls of all archives in turns, on the same tables.

use milebeacon::ffi::Answer;
use milebeacon::Tables;

use bench::clock::timed;

use crate::calls::Call;
use crate::loaded::Core;

/// The archive before the change, the one after it, and the one before it once more.
pub type Placement = [Core; 3];

/// The places in a [`Placement`], and in [`Times`].
pub const BEFORE: usize = 0;
pub const AFTER: usize = 1;
pub const AGAIN: usize = 2;

/// Every order of three, so that none of them is always the first, nor always after the same one.
const ORDERS: [[usize; 3]; 6] = [
    [BEFORE, AFTER, AGAIN],
    [AGAIN, AFTER, BEFORE],
    [AFTER, AGAIN, BEFORE],
    [BEFORE, AGAIN, AFTER],
    [AGAIN, BEFORE, AFTER],
    [AFTER, BEFORE, AGAIN],
];

/// The microseconds of each turn, for each of the three.
pub type Times = [Vec<f64>; 3];

/// What `time` measures in each turn. Turns take the placements one after the other, so turn `t` is
/// one of placement `t % placements.len()`.
pub fn in_turns(
    placements: &[Placement],
    turns: usize,
    mut time: impl FnMut(&Core) -> f64,
) -> Times {
    let mut times = [(); 3].map(|()| Vec::with_capacity(turns));
    for turn in 0..turns {
        let placement = &placements[turn % placements.len()];
        for which in ORDERS[turn / placements.len() % ORDERS.len()] {
            // the first time brings the code back into the caches, the second one counts
            time(&placement[which]);
            times[which].push(time(&placement[which]));
        }
    }
    times
}

/// The microseconds of one call in each turn.
///
/// # Errors
///
/// In what two of them differ, or an answer that is not the call's.
pub fn taken(call: &Call, placements: &[Placement], turns: usize) -> Result<Times, String> {
    let mut shared = Shared::agreed(call, placements)?;
    let times = in_turns(placements, turns, |core| shared.time(core));
    assert!(
        shared.tables == call.start,
        "every changed word was put back"
    );
    Ok(times)
}

/// A call that all archives answer alike, and the tables that all are lent.
struct Shared<'a> {
    call: &'a Call,
    answer: Answer,
    tables: Tables<Vec<u64>>,
    changes: Vec<Change>,
}

/// A word to put back: the place of its table, its place there, and the word.
type Change = (usize, usize, u64);

impl<'a> Shared<'a> {
    /// Makes the call with each archive, from the same words, and compares the answers and all
    /// words of the tables afterwards.
    fn agreed(call: &'a Call, placements: &[Placement]) -> Result<Shared<'a>, String> {
        let outcome = |core: &Core| {
            let mut tables = call.start.clone();
            (core.submit(tables.as_mut(), bytes(call, core)), tables)
        };
        let (answer, end) = outcome(&placements[0][BEFORE]);
        if answer.number != call.number {
            return Err(format!("{answer:?} is not the answer {}", call.number));
        }
        for (other, tables) in placements.iter().flatten().map(outcome) {
            if other != answer {
                return Err(format!("the answers differ: {answer:?} and {other:?}"));
            }
            if tables != end {
                return Err("the words of the tables after the call differ".into());
            }
        }
        Ok(Shared {
            call,
            answer,
            tables: call.start.clone(),
            changes: changes(&call.start, &end),
        })
    }

    /// The microseconds of one call. Afterwards the words that it has changed are put back.
    fn time(&mut self, core: &Core) -> f64 {
        let mut answer = None;
        let time = timed(1, || {
            answer = Some(core.submit(self.tables.as_mut(), bytes(self.call, core)));
        });
        assert!(answer == Some(self.answer), "the same call, another answer");
        let tables = parts(self.tables.as_mut());
        for &(table, place, word) in &self.changes {
            tables[table][place] = word;
        }
        time
    }
}

/// The call's bytes in the form that the archive knows.
fn bytes<'a>(call: &'a Call, core: &Core) -> &'a [u8] {
    if core.knows_replies() {
        &call.bytes
    } else {
        &call.old_form
    }
}

/// The words of the start that are others at the end.
fn changes(start: &Tables<Vec<u64>>, end: &Tables<Vec<u64>>) -> Vec<Change> {
    let mut changes = Vec::new();
    let tables = parts(start.as_ref()).into_iter().zip(parts(end.as_ref()));
    for (table, (old, new)) in tables.enumerate() {
        for (place, (&old, &new)) in old.iter().zip(new).enumerate() {
            if old != new {
                changes.push((table, place, old));
            }
        }
    }
    changes
}

fn parts<T>(tables: Tables<T>) -> [T; 5] {
    [
        tables.header,
        tables.wallets,
        tables.escrows,
        tables.receipts,
        tables.journal,
    ]
}
