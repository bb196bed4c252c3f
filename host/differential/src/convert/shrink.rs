//! Makes a conversion in which a difference was found small.

use milebeacon::ffi;
use second::ENTRY_BYTES;

use super::compare_replay;
use crate::replay::recording::By;
use crate::replay::Replay;
use crate::small::{shrink_by, Small};
use crate::tally::Tally;
use crate::twin::Difference;

/// How many entries are told.
const TOLD: usize = 40;

/// Leaves out steps and makes the rest plainer, as long as some difference is found in what both make
/// of the recording.
pub fn shrink(replay: &Replay, difference: Difference) -> Small<Replay> {
    shrink_to(replay, difference, &|replay| {
        compare_replay(replay, &mut Tally::default()).err()
    })
}

/// The same of what some test finds in a recording of the old form.
pub fn shrink_to(
    replay: &Replay,
    difference: Difference,
    test: &dyn Fn(&Replay) -> Option<Difference>,
) -> Small<Replay> {
    shrink_by(replay, difference, &|replay| {
        // in another form there is nothing to convert
        let old = replay.by == By::SecondInOldForm;
        old.then(|| test(replay)).flatten()
    })
}

/// The conversion in words: the steps, and each entry before it and as the core makes it.
pub fn story(small: &Small<Replay>) -> String {
    let Replay {
        history,
        change,
        place,
        on,
        seed,
        ..
    } = &small.inner;
    let (begin, sizes) = (history.begin, history.sizes);
    let mut story = format!(
        "a conversion: begin {begin:?}, {sizes:?}, seed {}; change {change:?} in entry {}, on {on:?}, seed {seed}\n",
        history.seed,
        place + 1
    );
    for (number, step) in (1..).zip(&history.steps) {
        story += &format!("step {number}: {step:?}\n");
    }
    let entries = small.inner.entries();
    let old = entries.and_then(|entries| small.inner.recording(&entries));
    let old = old.map_or_else(|_| Vec::new(), |recording| recording.bytes);
    let mut new = old.clone();
    ffi::convert(&mut new);
    let entries = old.chunks(ENTRY_BYTES).zip(new.chunks(ENTRY_BYTES));
    for (number, (before, after)) in (1..).zip(entries).take(TOLD) {
        let (before, after) = (told(before), told(after));
        story += &format!("entry {number}: {before}\n    by the core {after}\n");
    }
    story + &format!("{}\n", small.found)
}

/// The operation, the flags and the answer, as far as they are there.
fn told(entry: &[u8]) -> String {
    match (entry.get(2..4), entry.get(108..ENTRY_BYTES)) {
        (Some(head), Some(answer)) => format!(
            "operation {}, flags {:04b}, answer and word {answer:02X?}",
            head[0], head[1]
        ),
        _ => format!("cut to {} bytes", entry.len()),
    }
}
