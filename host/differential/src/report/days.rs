//! Histories in which credits move in every way that a report counts: grants, transfers, releases,
//! refunds, accepts, and sweeps that release and expire in one go. Disputes are among them, replies
//! that come too late or are malformed, a crew that leaves, and what is then refused because its
//! wallet is closed.

use milebeacon::Sizes;

use crate::dice::Dice;
use crate::history::{Begin, History};
use crate::parties::{departure, CLOSED, WITH_BALANCE};
use crate::replies::{ACCEPT, DISPUTE, OTHER_FORM, OTHER_REASON};
use crate::start::roomy_sizes;
use crate::step::Step;

const GRANT: u8 = 0;
const TRANSFER: u8 = 1;
const OPEN: u8 = 2;
const RELEASE: u8 = 3;
const REFUND: u8 = 4;
const CLAIM: u8 = 5;
const SWEEP: u8 = 8;
const CLOSE: u8 = 11;

/// Such a history, mostly of one day. Some steps by chance are among the others.
pub fn roll(dice: &mut Dice) -> History {
    let sizes = match dice.below(4) {
        0 => Sizes::PROGRAM,
        _ => roomy_sizes(dice),
    };
    let mut steps = Vec::new();
    // to parties that have no wallet
    steps.extend((0..3).map(|_| Step {
        target: 1,
        ..plain(GRANT, dice)
    }));
    for _ in 0..dice.pick(&[1, 1, 2]) {
        day(&mut steps, dice);
    }
    let mut among = Vec::new();
    for step in steps {
        among.push(step);
        if among.len() > 3 && dice.once_in(5) {
            among.push(aside(dice));
        }
    }
    History {
        begin: Begin::Fresh,
        sizes,
        seed: dice.word(),
        steps: among,
    }
}

/// A step of this operation that settles where it can.
fn plain(op: u8, dice: &mut Dice) -> Step {
    Step {
        op,
        pick: dice.word() as u16,
        ..Step::default()
    }
}

/// One that stands among the others: any, or one with a wrong mark or operation byte.
fn aside(dice: &mut Dice) -> Step {
    let step = Step::settling(dice);
    // the clock stands still, or deadlines would pass
    Step {
        tick: 0,
        damage: dice.pick(&[0, 0, 9, 10]),
        ..step
    }
}

/// A claim that is not accepted, as that has a reason, nor disputed, as operation 8 is none and then
/// the reason is missing, before it is.
fn disputed(claim: Step, dice: &mut Dice) -> [Step; 5] {
    let other_reason = |reply, dice: &mut Dice| Step {
        flags: OTHER_REASON,
        ..plain(reply, dice)
    };
    [
        claim,
        other_reason(ACCEPT, dice),
        plain(OTHER_FORM, dice),
        other_reason(DISPUTE, dice),
        plain(DISPUTE, dice),
    ]
}

fn day(steps: &mut Vec<Step>, dice: &mut Dice) {
    let long = |dice: &mut Dice| Step {
        until: 3,
        ..plain(OPEN, dice)
    };
    let short = |dice: &mut Dice| Step {
        until: 9,
        ..plain(OPEN, dice)
    };
    let claim = |dice: &mut Dice, odd: u16| Step {
        link: 1,
        pick: dice.word() as u16 & !1 | odd,
        ..plain(CLAIM, dice)
    };
    steps.push(plain(TRANSFER, dice));
    steps.extend([long(dice), long(dice)]);
    steps.extend([plain(RELEASE, dice), plain(REFUND, dice)]);
    steps.extend((0..4).map(|_| long(dice)));
    steps.extend([claim(dice, 0), plain(ACCEPT, dice)]);
    steps.extend(disputed(claim(dice, 0), dice));
    // an odd number asks for auto-accept, and the same number for the same of some escrows
    let auto = claim(dice, 1);
    let other = Step {
        pick: auto.pick.wrapping_add(2),
        ..auto
    };
    steps.extend([auto, auto, other, claim(dice, 0)]);
    steps.extend((0..dice.between(1, 3)).map(|_| short(dice)));
    // when the time for acceptance is over, a reply to one of the claims, which is refused
    let late = dice.pick(&[ACCEPT, DISPUTE]);
    steps.push(Step {
        tick: 12,
        ..plain(late, dice)
    });
    // and all that is due or so many rows, then what is left
    for (tick, amount) in [(12, dice.pick(&[2, 2, 2, 4, 4, 4, 7, 0])), (0, 2)] {
        steps.push(Step {
            tick,
            amount,
            ..plain(SWEEP, dice)
        });
    }
    steps.extend(departure(dice));
    // to a closed wallet, of one, of one that has balance; and malformed, as a close has no amount
    for (op, target, amount) in [
        (GRANT, CLOSED, 0),
        (CLOSE, CLOSED, 0),
        (CLOSE, WITH_BALANCE, 0),
        (CLOSE, 0, 15),
    ] {
        steps.push(Step {
            target,
            amount,
            ..plain(op, dice)
        });
    }
    steps.push(plain(GRANT, dice));
}
