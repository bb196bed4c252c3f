//! Makes a replay in which a difference was found small.

use second::ENTRY_BYTES;

use super::lent::On;
use super::recording::{By, Change};
use super::Replay;
use crate::history::Found;
use crate::shrink::told as told_history;
use crate::small::{shrink_by, Shrink, Small, Test};
use crate::tally::Tally;
use crate::twin::Difference;

/// How many entries are told.
const TOLD: usize = 40;

/// Leaves out steps and makes the rest plainer, as long as some difference is found.
pub fn shrink(replay: &Replay, difference: Difference) -> Small<Replay> {
    shrink_by(replay, difference, &|replay| {
        replay.compare(&mut Tally::default()).err()
    })
}

impl Shrink for Replay {
    type Found = Difference;

    fn smaller(small: &mut Small<Replay>, test: Test<'_, Replay>) {
        smaller_history(small, test);
        fewer_before(small, test);
        plainer(small, test);
    }
}

fn smaller_history(small: &mut Small<Replay>, test: Test<'_, Replay>) {
    let replay = small.inner.clone();
    // every step may matter to what is found at the end
    let found = |difference, steps| Found {
        step: steps,
        difference,
    };
    let first = found(small.found.clone(), replay.history.steps.len());
    let smaller = shrink_by(&replay.history, first, &|history| {
        let candidate = Replay {
            history: history.clone(),
            ..replay.clone()
        };
        test(&candidate).map(|difference| found(difference, history.steps.len()))
    });
    small.inner.history = smaller.inner;
    small.found = smaller.found.difference;
}

/// Leaves out steps before the entry that is changed, which then stands at an earlier place.
fn fewer_before(small: &mut Small<Replay>, test: Test<'_, Replay>) {
    let mut width = small.inner.place;
    while width > 0 {
        let mut from = 0;
        while from + width <= small.inner.place.min(small.inner.history.steps.len()) {
            let mut candidate = small.inner.clone();
            candidate.history.steps.drain(from..from + width);
            candidate.place -= width;
            if !small.adopt(candidate, test) {
                from += width;
            }
        }
        width /= 2;
    }
}

fn plainer(small: &mut Small<Replay>, test: Test<'_, Replay>) {
    let changes: [fn(&mut Replay); 7] = [
        |replay| replay.change = Change::Nothing,
        |replay| replay.place = 0,
        |replay| {
            let steps = replay.history.steps.len();
            replay.place = replay.place.min(steps.saturating_sub(1));
        },
        |replay| replay.on = On::Words,
        |replay| replay.by = By::Core,
        |replay| replay.seed = 0,
        |replay| {
            if let Change::Cut(_) = replay.change {
                replay.change = Change::Cut(1);
            }
        },
    ];
    for change in changes {
        let mut candidate = small.inner.clone();
        change(&mut candidate);
        small.adopt(candidate, test);
    }
}

/// A replay in words: the steps, and what was recorded of them.
pub(crate) fn told(replay: &Replay) -> String {
    let Replay {
        history,
        by,
        change,
        place,
        on,
        seed,
    } = replay;
    let mut story = format!(
        "recorded by {by:?}, change {change:?} in entry {}, on {on:?}, seed {seed}\n",
        place + 1
    );
    story += &told_history(history);
    let recording = replay
        .entries()
        .and_then(|entries| replay.recording(&entries));
    let bytes = recording.map_or_else(|_| Vec::new(), |recording| recording.bytes);
    let pieces = bytes.chunks(ENTRY_BYTES);
    let untold = pieces.len().saturating_sub(TOLD);
    for (entry, piece) in (1..).zip(pieces).take(TOLD) {
        story += &match piece.get(108..ENTRY_BYTES) {
            Some(answer) => format!("entry {entry}: answer and word {answer:02X?}\n"),
            None => format!("entry {entry}: cut to {} bytes\n", piece.len()),
        };
    }
    if untold > 0 {
        story += &format!("and {untold} more\n");
    }
    story
}

impl Small<Replay> {
    /// The replay in words, and the difference.
    pub fn story(&self) -> String {
        format!("a replay: {}{}\n", told(&self.inner), self.found)
    }
}
