//! What is found in a long history is shown in a short one.

use differential::dice::Dice;
use differential::history::{Begin, Found, History};
use differential::small::shrink_by;
use differential::tally::Tally;
use differential::twin::{Difference, Twin};
use milebeacon::Sizes;

/// What is looked for: something of a step's answer and of all that was counted so far.
type Wanted<'a> = &'a dyn Fn(u64, &Tally) -> bool;

/// Finds the first step after which this holds.
fn first(history: &History, wanted: Wanted<'_>) -> Option<Found> {
    let tally = &mut Tally::default();
    let mut twin = Twin::new(history.world());
    twin.fresh(tally).ok()?;
    let mut last = Vec::new();
    for (step, taken) in history.steps.iter().enumerate() {
        last = taken.record(twin.world(), &last);
        let (answer, _) = twin.submit(&last, tally).ok()?;
        if wanted(answer, tally) {
            let difference = Difference(format!("answer {answer}"));
            return Some(Found { step, difference });
        }
    }
    None
}

/// How many histories are made short. One may come to rest at a few steps more than it takes.
const TRIED: usize = 8;

/// Of long histories that come to this, the one that becomes the shortest, and its length before.
fn smallest(wanted: Wanted<'_>) -> (usize, History) {
    let test = |history: &History| first(history, wanted);
    let long = (0..).map(|seed| {
        let dice = &mut Dice::new(seed);
        History::of(Begin::Fresh, Sizes::PROGRAM, dice, 300)
    });
    long.filter_map(|history| {
        let found = test(&history)?;
        Some((found.step + 1, shrink_by(&history, found, &test).inner))
    })
    .take(TRIED)
    .min_by_key(|(_, small)| small.steps.len())
    .expect("there is always another seed")
}

#[test]
fn a_closed_escrow_is_found_closed_in_a_few_steps() {
    // grant, open, claim, and whatever lets the deadline pass or closes the escrow
    let (length, small) = smallest(&|answer, _| answer == 29);
    assert!(small.steps.len() <= 4, "{length} steps became {small:#?}");
}

#[test]
fn a_deadline_after_the_escrows_takes_three_steps() {
    // grant, open, claim
    let (length, small) = smallest(&|answer, _| answer == 31);
    assert!(small.steps.len() <= 3, "{length} steps became {small:#?}");
    let odd = small
        .steps
        .iter()
        .flat_map(|step| [step.signer, step.nonce, step.damage, step.flags]);
    assert_eq!(
        odd.sum::<u8>(),
        0,
        "knobs that do not matter are plain: {small:#?}"
    );
}

#[test]
fn a_hold_that_decides_at_the_end_of_its_day_takes_four_steps() {
    // grant, caps, open, and the payment
    for what in [
        "open refused by a hold of 86,400,000 ms before",
        "transfer settled after a hold of 86,400,001 ms before",
    ] {
        let (length, small) = smallest(&|_, tally| !tally.daily.missing().contains(&what));
        assert!(
            small.steps.len() <= 4,
            "{what}: {length} steps became {small:#?}"
        );
    }
}

#[test]
fn a_closed_wallet_takes_four_steps() {
    // grant, a transfer of all of it, close, and what names the wallet
    let (length, small) = smallest(&|answer, _| answer == 43);
    assert!(small.steps.len() <= 4, "{length} steps became {small:#?}");
}

#[test]
fn what_is_left_in_a_wallet_takes_two_steps() {
    // grant, close
    let (length, small) = smallest(&|answer, _| answer == 42);
    assert!(small.steps.len() <= 2, "{length} steps became {small:#?}");
}
