//! The search for a used signer and nonce on a full journal: alone, and in a whole submission.

use milebeacon::{Envelope, JournalRow, Ledger, Record, Sizes, Submission, Tables};

use bench::clock::timed;
use bench::fill::{filled, id, mixed, Ids, NOW};
use bench::stream::{hold_and_release, records};

use crate::turns::{in_turns, Placement, Times};

const IDS: Ids = Ids::Random;
/// How many records of a kind there are.
const ASKED: usize = 16;
/// How often all of them are looked for when the search is timed alone: a single search can be too
/// short for the clock.
const REPEATS: usize = 4;
/// A nonce that nobody has used.
const UNUSED: u64 = 500;

/// Records of one kind, and the full journal that they find. All of them are refused.
pub struct Asked {
    /// Its name in the report.
    pub name: &'static str,
    start: Tables<Vec<u64>>,
    records: Vec<Record>,
    /// Signer and nonce of each.
    keys: Vec<(u64, u64)>,
    /// The number that each must be answered: 11 if its signer and nonce are seen.
    number: u64,
}

/// Retries of rows here and there, and submissions that are no retries.
pub fn on_full_journals() -> Vec<Asked> {
    let (full, newest) = full_journal();
    let rows: Vec<_> = full.journal().collect();
    let retries = |place: &dyn Fn(usize) -> usize| {
        let rows = (0..ASKED).map(|n| &rows[place(n)]);
        rows.map(|row| payment(row.signer(), row.nonce())).collect()
    };
    let apart = rows.len() / ASKED;
    let all_over = retries(&|n| n * apart + apart / 2);
    let oldest = retries(&|n| n);
    let not_there = |n| payment(id(IDS, n), UNUSED);
    let half = payment(id(IDS, 0), UNUSED);
    vec![
        Asked::new("retry of one of the newest 16 rows", &full, newest, 11),
        Asked::new("retry of a row from all over", &full, all_over, 11),
        Asked::new("retry of one of the oldest 16 rows", &full, oldest, 11),
        Asked::new(
            "a nonce that is not there",
            &full,
            (0..ASKED).map(not_there).collect(),
            40,
        ),
        Asked::new(
            "the same, of a signer who has half of the rows, in no order",
            &half_of_one_signer(&full),
            vec![half; ASKED],
            40,
        ),
    ]
}

/// The largest tables without a free journal row, and the submissions that the newest rows are of.
fn full_journal() -> (Ledger, Vec<Submission>) {
    let mut ledger = filled(Sizes::LARGEST, IDS);
    let stream = hold_and_release(Sizes::LARGEST, IDS);
    for record in records(&stream) {
        assert!(ledger.submit(&record).is_settled(), "there is room");
    }
    let rows = ledger.journal().count();
    assert_eq!(rows, Sizes::LARGEST.journal, "the journal is full");
    (ledger, stream)
}

/// The same with about half of the journal's rows, by chance, signed by the first wallet.
fn half_of_one_signer(full: &Ledger) -> Ledger {
    let mut tables = full.clone().into_tables();
    let rows = tables.journal.chunks_exact_mut(JournalRow::WORDS);
    for (_, row) in rows
        .enumerate()
        .filter(|&(place, _)| mixed(place as u64) % 2 == 0)
    {
        row[0] = id(IDS, 0);
    }
    let mut ledger = Ledger::over(tables);
    assert!(ledger.is_sound(), "anybody may have signed");
    ledger
}

/// A payment with this signer and nonce.
fn payment(signer: u64, nonce: u64) -> Submission {
    let target = if signer == id(IDS, 3) { 4 } else { 3 };
    Submission::transfer(Envelope::new(NOW, signer, nonce), id(IDS, target), 1)
}

impl Asked {
    fn new(name: &'static str, full: &Ledger, asked: Vec<Submission>, number: u64) -> Asked {
        assert_eq!(asked.len(), ASKED);
        Asked {
            name,
            start: full.clone().into_tables(),
            keys: asked.iter().map(|s| (s.signer, s.nonce)).collect(),
            records: records(&asked),
            number,
        }
    }

    /// The microseconds of one search in each turn.
    pub fn search(&self, placements: &[Placement], turns: usize) -> Times {
        in_turns(placements, turns, |core| {
            timed(REPEATS * ASKED, || {
                for &(signer, nonce) in self.keys.iter().cycle().take(REPEATS * ASKED) {
                    let seen = core.seen(&self.start.journal, signer, nonce);
                    assert_eq!(seen, self.number == 11);
                }
            })
        })
    }

    /// The microseconds of one submission in each turn.
    pub fn submit(&self, placements: &[Placement], turns: usize) -> Times {
        let mut tables = self.start.clone();
        let times = in_turns(placements, turns, |core| {
            timed(ASKED, || {
                for record in &self.records {
                    let answer = core.submit(tables.as_mut(), record);
                    assert_eq!((answer.number, answer.word), (self.number, 0));
                }
            })
        });
        assert!(tables == self.start, "a refusal changes nothing");
        times
    }
}
