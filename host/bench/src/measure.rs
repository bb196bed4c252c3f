//! What calls cost.

use milebeacon::{Ledger, Sizes, Tables};

use bench::clock::timed;
use bench::fill::{filled, Ids};
use bench::stream::{hold_and_release, records};

/// How often everything is measured.
#[derive(Clone, Copy)]
pub struct Effort {
    pub turns: usize,
}

impl Effort {
    pub const FULL: Effort = Effort { turns: 40 };
    pub const QUICK: Effort = Effort { turns: 4 };
}

/// Microseconds for one call, the least of all turns.
#[derive(Clone, Copy, Debug)]
pub struct Costs {
    /// One read of all words of the five tables.
    pub read: f64,
    /// Whether the ledger is sound: a submission of no bytes, which is refused right after.
    pub core_sound: f64,
    pub second_sound: f64,
    /// A submission that settles.
    pub core_submit: f64,
    pub second_submit: f64,
}

/// The sum of all words and `sum`. Not inlined, and each time from another sum, so that every call
/// is made.
#[inline(never)]
fn words(tables: &Tables<&[u64]>, sum: u64) -> u64 {
    [
        tables.header,
        tables.wallets,
        tables.escrows,
        tables.receipts,
        tables.journal,
    ]
    .into_iter()
    .flatten()
    .fold(sum, |sum, word| word.wrapping_add(sum))
}

fn lent(tables: &mut Tables<Vec<u64>>) -> second::Tables<'_> {
    second::Tables {
        header: &mut tables.header,
        wallets: &mut tables.wallets,
        escrows: &mut tables.escrows,
        receipts: &mut tables.receipts,
        journal: &mut tables.journal,
    }
}

/// Measures everything in turns on a ledger that is full but for a few rows.
pub fn at_size(sizes: Sizes, ids: Ids, effort: Effort) -> Costs {
    let start = filled(sizes, ids);
    let records = records(&hold_and_release(sizes, ids));
    let count = records.len();
    let mut least = Costs {
        read: f64::MAX,
        core_sound: f64::MAX,
        second_sound: f64::MAX,
        core_submit: f64::MAX,
        second_submit: f64::MAX,
    };
    for turn in 0..effort.turns {
        let mut core: Ledger = start.clone();
        let mut second = start.clone().into_tables();
        let mut sum = turn as u64;
        let read = timed(count, || {
            for _ in 0..count {
                sum = words(&core.tables(), sum);
            }
        });
        let core_sound = timed(count, || {
            for _ in 0..count {
                assert_eq!(core.submit(&[]).number(), 3);
            }
        });
        let second_sound = timed(count, || {
            for _ in 0..count {
                assert_eq!(second::submit(&mut lent(&mut second), &[]).0, 3);
            }
        });
        let core_submit = timed(count, || {
            for record in &records {
                assert_eq!(core.submit(record).number(), 0);
            }
        });
        let second_submit = timed(count, || {
            for record in &records {
                assert_eq!(second::submit(&mut lent(&mut second), record).0, 0);
            }
        });
        assert!(sum != 0, "the words were read");
        assert!(core.into_tables() == second, "both leave the same words");
        least.read = least.read.min(read);
        least.core_sound = least.core_sound.min(core_sound);
        least.second_sound = least.second_sound.min(second_sound);
        least.core_submit = least.core_submit.min(core_submit);
        least.second_submit = least.second_submit.min(second_submit);
    }
    least
}
