//! What an entry of a recording costs when it is replayed, beside the same record submitted.

use milebeacon::{Ledger, Record, Recorder, Replay, Sizes, Submission, ENTRY_BYTES};

use bench::clock::timed;
use bench::history::{filling, late};
use bench::stream::records;

use crate::measure::Effort;

/// Entries that come when the tables are full: about half as many as fill the largest ones, so that
/// the time for these is a large part of the whole replay's.
const LATE: usize = 4_096;

/// The median of all turns, the least and the most.
#[derive(Clone, Copy, Debug)]
pub struct Spread {
    pub median: f64,
    pub least: f64,
    pub most: f64,
}

impl Spread {
    fn of(mut values: Vec<f64>) -> Spread {
        values.sort_by(f64::total_cmp);
        Spread {
            median: values[values.len() / 2],
            least: values[0],
            most: values[values.len() - 1],
        }
    }
}

/// One kind of entry. Times are microseconds for one entry.
pub struct Replayed {
    pub name: &'static str,
    pub entries: usize,
    pub submit: Spread,
    pub replay: Spread,
    /// The replayed entry's time over the submission's, turn by turn.
    pub ratio: Spread,
}

/// A part of a recording that is timed by itself, and what the turns said.
struct Part {
    name: &'static str,
    records: Vec<Record>,
    /// The recording up to the end of this part.
    recording: Vec<u8>,
    turns: Vec<(f64, f64)>,
}

impl Part {
    /// Keeps the microseconds for all entries: submitted, and replayed.
    fn take_turn(&mut self, (submit, replay): (f64, f64)) {
        let entries = self.records.len() as f64;
        self.turns.push((submit / entries, replay / entries));
    }

    fn replayed(self) -> Replayed {
        let of = |value: fn(&(f64, f64)) -> f64| Spread::of(self.turns.iter().map(value).collect());
        Replayed {
            name: self.name,
            entries: self.records.len(),
            submit: of(|turn| turn.0),
            replay: of(|turn| turn.1),
            ratio: of(|turn| turn.1 / turn.0),
        }
    }
}

/// Measures the entries that fill tables of this size, all of which settle, and then, on the full
/// tables, entries of each kind that can come then.
///
/// A replay starts afresh, so the time of late entries is that of a recording with them less that of
/// the recording without them, which is replayed right before. All is done in the same buffers.
pub fn at_size(sizes: Sizes, effort: Effort) -> Vec<Replayed> {
    let mut ledger = Ledger::new(sizes).expect("right sizes");
    let name = "from fresh to full (0)";
    let mut filled = part(name, &ledger, Vec::new(), &filling(sizes), 0);
    timed_replay(&mut ledger, &filled.recording);
    assert_eq!(ledger.wallets().count(), sizes.wallets, "all are written");
    assert_eq!(ledger.escrows().count(), sizes.escrows, "all are written");
    assert_eq!(ledger.journal().count(), sizes.journal, "it is full");
    let mut parts: Vec<Part> = late(sizes, LATE)
        .into_iter()
        .map(|late| {
            let before = filled.recording.clone();
            part(late.name, &ledger, before, &late.submissions, late.answer)
        })
        .collect();

    // an odd number, so that one of them is the median
    for turn in 0..(effort.turns / 6 | 1).max(3) {
        let mut times = (0.0, 0.0);
        for is_replay in [turn % 2 == 0, turn % 2 != 0] {
            ledger.start_afresh().expect("right sizes");
            if is_replay {
                times.1 = timed_replay(&mut ledger, &filled.recording);
            } else {
                times.0 = timed_submit(&mut ledger, &filled.records);
            }
        }
        filled.take_turn(times);
        for part in &mut parts {
            let before = timed_replay(&mut ledger, &filled.recording);
            let submit = timed_submit(&mut ledger, &part.records);
            let replay = timed_replay(&mut ledger, &part.recording) - before;
            part.take_turn((submit, replay));
        }
    }
    let all = [filled].into_iter().chain(parts);
    all.map(Part::replayed).collect()
}

/// Records the submissions on a copy of the ledger, behind what led to it. Each is answered by this
/// number.
fn part(
    name: &'static str,
    ledger: &Ledger,
    mut recording: Vec<u8>,
    submissions: &[Submission],
    number: u64,
) -> Part {
    let records = records(submissions);
    let mut recorder = Recorder::resume(ledger.clone(), &mut recording);
    for (place, record) in records.iter().enumerate() {
        let answer = recorder.submit(record).expect("a vector takes all");
        assert_eq!(answer.number(), number, "{name}: submission {place}");
    }
    Part {
        name,
        records,
        recording,
        turns: Vec::new(),
    }
}

/// Microseconds for all of them, on the ledger as it stands.
fn timed_submit(ledger: &mut Ledger, records: &[Record]) -> f64 {
    timed(1, || {
        for record in records {
            let _ = ledger.submit(record);
        }
    })
}

/// Microseconds for the whole recording. The ledger is left as it leads to.
fn timed_replay(ledger: &mut Ledger, recording: &[u8]) -> f64 {
    let mut found = None;
    let time = timed(1, || found = Some(ledger.replay(recording)));
    let entries = (recording.len() / ENTRY_BYTES) as u64;
    assert_eq!(found, Some(Ok(Replay::AllAgree { entries })));
    time
}
