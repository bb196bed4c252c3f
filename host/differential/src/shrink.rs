//! Makes a history in which a difference was found small.

use crate::history::{Begin, Found, History};
use crate::small::{shrink_by, Shrink, Small, Test};
use crate::step::Step;
use crate::tally::Tally;

/// Leaves out steps and makes the others plainer, as long as some difference is found.
pub fn shrink(history: &History, found: Found) -> Small<History> {
    shrink_by(history, found, &|history| {
        history.play(&mut Tally::default()).err()
    })
}

impl Shrink for History {
    type Found = Found;

    fn smaller(small: &mut Small<History>, test: Test<'_, History>) {
        fewer_steps(small, test);
        plainer_steps(small, test);
        plainer_start(small, test);
    }

    /// Nothing after the difference matters.
    fn cut(&mut self, found: &Found) {
        self.steps.truncate(found.step + 1);
    }
}

fn fewer_steps(small: &mut Small<History>, test: Test<'_, History>) {
    let mut width = small.inner.steps.len();
    while width > 0 {
        let mut from = 0;
        while from < small.inner.steps.len() {
            let mut candidate = small.inner.clone();
            let until = (from + width).min(candidate.steps.len());
            candidate.steps.drain(from..until);
            if !small.adopt(candidate, test) {
                // overlapping, as steps may cancel out that do not stand at a multiple
                from += (width / 2).max(1);
            }
        }
        width /= 2;
    }
}

fn plainer_steps(small: &mut Small<History>, test: Test<'_, History>) {
    let plainer: [fn(&mut Step); 12] = [
        |step| step.damage = 0,
        |step| step.tick = 0,
        |step| step.signer = 0,
        |step| step.nonce = 0,
        |step| step.window = 0,
        |step| step.target = 0,
        |step| step.amount = 0,
        |step| step.until = 0,
        |step| step.link = 0,
        |step| step.flags = 0,
        |step| step.pick = 0,
        |step| step.pick /= 2,
    ];
    for change in plainer {
        // of all steps at once, as several may have to mean the same row; or of one after another
        let mut candidate = small.inner.clone();
        candidate.steps.iter_mut().for_each(change);
        if small.adopt(candidate, test) {
            continue;
        }
        for place in 0..small.inner.steps.len() {
            let mut candidate = small.inner.clone();
            if let Some(step) = candidate.steps.get_mut(place) {
                change(step);
                small.adopt(candidate, test);
            }
        }
    }
}

fn plainer_start(small: &mut Small<History>, test: Test<'_, History>) {
    // only ever towards a fresh start, or this would go round and round
    let plainer: &[Begin] = match small.inner.begin {
        Begin::Fresh => &[],
        Begin::Lent => &[Begin::Fresh],
        Begin::HalfFull | Begin::NearlyFull | Begin::Departed => &[Begin::Fresh, Begin::Lent],
    };
    for &begin in plainer {
        let candidate = History {
            begin,
            ..small.inner.clone()
        };
        if small.adopt(candidate, test) {
            break;
        }
    }
    let candidate = History {
        seed: 0,
        ..small.inner.clone()
    };
    small.adopt(candidate, test);
}

/// A history in words: the steps and what they submit.
pub(crate) fn told(history: &History) -> String {
    let History {
        begin,
        sizes,
        seed,
        steps,
    } = history;
    let mut story = format!("begin: {begin:?}, {sizes:?}, seed {seed}\n");
    for (place, (step, record)) in steps.iter().zip(history.records()).enumerate() {
        let (number, fields) = second::read(&record);
        let shown = if number == 0 {
            format!("{fields:?}")
        } else {
            format!("{record:02X?}")
        };
        story += &format!("step {}: {step:?}\n    {shown}\n", place + 1);
    }
    story
}

impl Small<History> {
    /// The history in words, and the difference.
    pub fn story(&self) -> String {
        let Found { step, difference } = &self.found;
        told(&self.inner) + &format!("after step {}: {difference}\n", step + 1)
    }
}
