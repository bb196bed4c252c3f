//! Which receipt a reply is about, which checks refuse it, and when replies and sweeps come: within a
//! receipt's window, at its end, or after it.

use crate::dice::Dice;
use crate::parties::CLOSED as CLOSED_WALLET;
use crate::step::{Step, DAY_MS};
use crate::view::{ReceiptSeen, View};

/// The kinds of steps that reply to a claim: by bit 2 of one operation, and as the other form has it.
pub(crate) const ACCEPT: u8 = 6;
pub(crate) const DISPUTE: u8 = 7;
pub(crate) const OTHER_FORM: u8 = 14;
const SWEEP: u8 = 8;

/// The clock's knobs for the last moment of a receipt's window, for the one after it, and for one
/// long after it.
const AT: u8 = 11;
const JUST_AFTER: u8 = 12;
const LONG_AFTER: u8 = 19;

/// The knobs of the target for a receipt that is not there, and for one that is closed.
const MISSING: u8 = 3;
const CLOSED: u8 = 7;
/// The knob of the signer for a party with no wallet.
const ANOTHER: u8 = 3;
/// The knobs of the flags for a bit that no reply uses, for another bit 3, that is, for a dispute
/// without a reason or for an accept with one, and for any bits.
const OTHER_BIT: u8 = 2;
pub(crate) const OTHER_REASON: u8 = 5;
const ANY_BITS: u8 = 8;

/// What must come before a reply: wallets, escrows, claims.
pub(crate) fn claimed(dice: &mut Dice) -> Vec<Step> {
    const GRANT: u8 = 0;
    const TO_ANOTHER: u8 = 1;
    let mut plain = |op, target| Step {
        op,
        target,
        pick: dice.word() as u16,
        ..Step::default()
    };
    let ops = [
        (GRANT, TO_ANOTHER),
        (GRANT, TO_ANOTHER),
        (GRANT, TO_ANOTHER),
    ];
    let ops = ops.into_iter().chain([(2, 0), (2, 0), (5, 0), (5, 0)]);
    ops.map(|(op, target)| plain(op, target)).collect()
}

impl Step {
    /// A step by chance that leads to a reply or is one; some records are damaged.
    pub(crate) fn replying(dice: &mut Dice) -> Step {
        let often = [
            0, 2, 2, 5, 5, 5, ACCEPT, ACCEPT, DISPUTE, DISPUTE, OTHER_FORM,
        ];
        let seldom = [1, 3, 4, SWEEP, 9, 10, 11, 12, 13];
        let op = if dice.once_in(4) {
            dice.pick(&seldom)
        } else {
            dice.pick(&often)
        };
        let wild = dice.pick(&[0, 0, 0, 1]);
        let mut step = Step::of(op, dice, wild);
        if !dice.once_in(6) {
            step.tick = dice.below(4) as u8;
        }
        if dice.once_in(6) {
            step.damage = dice.below(16) as u8;
        }
        match dice.below(16) {
            // unsigned, or with a bit turned
            0 | 1 => step.flags = dice.between(1, ANY_BITS.into()) as u8,
            // ends before it begins, or beyond the last time; or by nobody
            2 => (step.window, step.signer) = dice.pick(&[(7, 0), (8, 0), (9, 0), (0, 4)]),
            3..=5 if op == DISPUTE => step.flags = OTHER_REASON,
            _ => {}
        }
        step.at_the_end_of_a_window(dice, 12)
            .at_two_checks(dice, 12)
    }

    /// The moment that a knob of the clock asks for, if it goes by a receipt's deadline.
    pub(crate) fn around_its_window(&self, view: &View<'_>) -> Option<u64> {
        let after = match self.tick {
            AT => 0,
            JUST_AFTER => 1,
            LONG_AFTER => 2 * DAY_MS + self.pick() % 2,
            _ => return None,
        };
        self.awaited(view).map(|receipt| receipt.deadline + after)
    }

    /// The receipt that the clock waits for: one whose window has not ended, if there is one.
    fn awaited(&self, view: &View<'_>) -> Option<ReceiptSeen> {
        let meant = |row: &ReceiptSeen| row.is_pending != (self.target == CLOSED);
        let clock = view.clock();
        view.receipt(|row| meant(row) && row.deadline >= clock, self.pick())
            .or_else(|| view.receipt(meant, self.pick()))
    }

    /// The receipt that a reply is about: the one that its clock has waited for, or else one that can
    /// be answered now, if there is one.
    pub(crate) fn answered(&self, view: &View<'_>, now: u64) -> Option<ReceiptSeen> {
        let pick = self.pick();
        let in_time = |row: &ReceiptSeen| row.is_pending && row.deadline >= now;
        let chosen = match (self.tick, self.target) {
            (AT | JUST_AFTER | LONG_AFTER, _) => self.awaited(view),
            (_, CLOSED) => view.receipt(|row| !row.is_pending, pick),
            (_, CLOSED_WALLET) => {
                let escrows = view.escrows_of_closed(now);
                view.receipt(|row| in_time(row) && escrows.contains(&row.link), pick)
                    .or_else(|| view.receipt(in_time, pick))
            }
            _ => view.receipt(in_time, pick),
        };
        chosen
            .or_else(|| view.receipt(|row| row.is_pending, pick))
            .or_else(|| view.receipt(|_| true, pick))
    }

    /// One reply in so many comes in the last moment of its receipt's window, just after it or long
    /// after it; and of those some are by somebody else, without a reason, or to a closed receipt.
    /// So do sweeps, but not long after it.
    pub(crate) fn at_the_end_of_a_window(mut self, dice: &mut Dice, once_in: u64) -> Step {
        if !matches!(self.op, ACCEPT | DISPUTE | SWEEP) || !dice.once_in(once_in) {
            return self;
        }
        if self.op == SWEEP {
            self.tick = dice.pick(&[AT, JUST_AFTER]);
            return self;
        }
        self.tick = dice.pick(&[AT, AT, JUST_AFTER, JUST_AFTER, LONG_AFTER]);
        match dice.below(8) {
            0 => self.signer = ANOTHER,
            1 => self.target = CLOSED,
            2 | 3 if self.op == DISPUTE => self.flags = OTHER_REASON,
            _ => {}
        }
        self
    }

    /// One reply in so many is refused by two checks at once, of which the first answers, or has other
    /// flags. An accept is asked for no reason, and is malformed with one.
    pub(crate) fn at_two_checks(mut self, dice: &mut Dice, once_in: u64) -> Step {
        if !matches!(self.op, ACCEPT | DISPUTE | OTHER_FORM) || !dice.once_in(once_in) {
            return self;
        }
        (self.signer, self.flags) = (0, 0);
        (self.tick, self.target) = (dice.pick(&[0, 0, 1]), 0);
        let late = dice.pick(&[JUST_AFTER, JUST_AFTER, LONG_AFTER]);
        match dice.below(8) {
            0 => (self.signer, self.target) = (ANOTHER, CLOSED),
            1 => (self.signer, self.tick) = (ANOTHER, late),
            2 => (self.target, self.tick) = (CLOSED, late),
            3 => (self.target, self.flags) = (MISSING, OTHER_REASON),
            4 => (self.signer, self.flags) = (ANOTHER, OTHER_REASON),
            5 => (self.target, self.flags) = (CLOSED, OTHER_REASON),
            6 => (self.tick, self.flags) = (late, OTHER_REASON),
            _ => self.flags = dice.pick(&[OTHER_REASON, OTHER_BIT, ANY_BITS]),
        }
        self
    }
}
