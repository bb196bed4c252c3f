//! One step of a history: a few small numbers that, with the tables as they stand, make a record.
//!
//! A step does not hold a record but says how to make one, so that steps can be left out or made
//! plainer and those that follow still mean something. In every knob 0 is the plain choice, one
//! that would settle where it can; the others lie at a limit of the rules or one beyond. So a small
//! example of a difference shows what matters in it: the knobs that are not 0.

use milebeacon::Submission;
use second::Form;

use crate::dice::Dice;
use crate::parties::OWN_SIGNER;
use crate::record::{damaged, encode};
use crate::replies::{ACCEPT, DISPUTE, OTHER_FORM};
use crate::twin::World;
use crate::view::View;

/// The last time that the rules allow.
pub const LAST_TIME: u64 = (1 << 48) - 1;
/// For so long a payment counts towards the daily cap.
pub const DAY_MS: u64 = 86_400_000;
/// The largest amount.
pub const MOST_AMOUNT: u64 = 1_000_000_000_000_000;
/// The largest granted total.
pub const MOST_GRANTED: u64 = 1_000_000_000_000_000_000;

/// One step.
#[derive(Clone, Copy, Debug, Default, PartialEq, Eq)]
pub struct Step {
    /// 0 to 11: the operations 1 to 12, of which 6 and 7 are the two replies to a claim, an accept
    /// and a dispute. 12 submits the last record again, 13 does so with a new clock. 14 is a reply
    /// as the other form of a record has it, which is malformed.
    pub op: u8,
    /// How far the clock moves, or to which row's moment.
    pub tick: u8,
    /// Who signs.
    pub signer: u8,
    /// A new nonce, an old one, or what an unwritten row happens to hold.
    pub nonce: u8,
    /// When the record is issued and expires.
    pub window: u8,
    /// Whom or what it is about.
    pub target: u8,
    /// How much.
    pub amount: u8,
    /// Until when.
    pub until: u8,
    /// The escrow of a claim; a daily cap.
    pub link: u8,
    /// The flag bits.
    pub flags: u8,
    /// How the finished record is damaged.
    pub damage: u8,
    /// Which rows are meant, and small amounts.
    pub pick: u16,
}

/// How many kinds of steps there are.
const KINDS: u8 = 15;
const AGAIN: u8 = 12;
const AGAIN_LATER: u8 = 13;

/// How many steps the knob of the clock has; the others have fewer than 16.
const TICKS: u64 = 21;
const KNOB: u64 = 16;

impl Step {
    /// A step by chance. `wild` out of 16 knobs are not plain.
    pub fn roll(dice: &mut Dice, wild: u64) -> Step {
        let often = [0, 1, 1, 2, 2, 2, 2, 5, 5, 5, 5, 6, 6];
        let seldom = [3, 4, 7, 7, 8, 8, 9, 10, 11, 12, 13, 14];
        let op = if dice.once_in(3) {
            dice.pick(&seldom)
        } else {
            dice.pick(&often)
        };
        Step::of(op, dice, wild)
            .at_the_end_of_a_hold(dice)
            .at_the_end_of_a_window(dice, 3)
            .at_two_checks(dice, 4)
            .at_a_closed_wallet(dice, 8)
    }

    /// A step by chance that settles more often than not: few knobs are not plain, and the clock
    /// mostly moves by little.
    pub fn settling(dice: &mut Dice) -> Step {
        let ops = [
            0, 0, 1, 1, 1, 2, 2, 2, 2, 3, 4, 5, 5, 5, 5, 5, 6, 6, 6, 7, 7, 8, 10,
        ];
        let op = match dice.below(128) {
            0 | 1 => 9,
            2 | 3 => AGAIN,
            4 | 5 => AGAIN_LATER,
            6 => OTHER_FORM,
            _ => dice.pick(&ops),
        };
        let wild = dice.pick(&[0, 0, 0, 1]);
        let mut step = Step::of(op, dice, wild);
        if step.tick != 0 && !dice.once_in(6) {
            step.tick = dice.between(1, 4) as u8;
        }
        // One dispute in six gives no reason.
        if op == DISPUTE && dice.once_in(6) {
            step.flags = 5;
        }
        step.at_the_end_of_a_hold(dice)
            .at_the_end_of_a_window(dice, 5)
            .at_two_checks(dice, 32)
            .at_a_closed_wallet(dice, 24)
    }

    /// A step by chance of which most name a closed wallet, and the clock mostly stands still.
    pub fn departed(dice: &mut Dice) -> Step {
        let ops = [
            0, 0, 1, 1, 2, 2, 2, 3, 4, 5, 5, 5, 6, 7, 8, 8, 9, 10, 11, 11,
        ];
        let wild = dice.pick(&[0, 0, 0, 1]);
        let mut step = Step::of(dice.pick(&ops), dice, wild);
        if !dice.once_in(6) {
            step.tick = dice.below(3) as u8;
        }
        // Half of the sweeps close all that is due.
        if step.op == 8 && dice.once_in(2) {
            step.amount = 2;
        }
        match dice.below(4) {
            0 => step,
            _ => step.at_a_closed_wallet(dice, 1),
        }
    }

    /// One payment in twelve comes, if its signer has a hold, when that counts for the last time or
    /// has just ceased to, and asks for all that is left of the daily cap or for one more.
    fn at_the_end_of_a_hold(mut self, dice: &mut Dice) -> Step {
        if matches!(self.op, 1 | 2) && dice.once_in(12) {
            let (tick, amount) = dice.pick(&[(17, 6), (17, 7), (18, 6), (18, 6)]);
            self.tick = tick;
            self.amount = amount;
        }
        self
    }

    /// A step of this operation by chance.
    pub(crate) fn of(op: u8, dice: &mut Dice, wild: u64) -> Step {
        let mut knob = |bound| {
            if dice.below(16) < wild {
                dice.below(bound) as u8
            } else {
                0
            }
        };
        let mut step = Step {
            op,
            tick: knob(TICKS),
            signer: knob(KNOB),
            nonce: knob(KNOB),
            window: knob(KNOB),
            target: knob(KNOB),
            amount: knob(KNOB),
            until: knob(KNOB),
            link: knob(KNOB),
            flags: knob(KNOB),
            damage: 0,
            pick: 0,
        };
        // The clock moves in one step of three, and one record in thirty is damaged.
        if step.tick == 0 && dice.once_in(3) {
            step.tick = dice.below(TICKS) as u8;
        }
        if dice.once_in(30) {
            step.damage = dice.below(KNOB) as u8;
        }
        // Half of the claims are linked, some of those by or to somebody else, or for as long as the
        // escrow.
        if step.op == 5 && dice.once_in(2) {
            step.link = 1;
            step.until = dice.pick(&[step.until, 6]);
            step.signer = dice.pick(&[step.signer, step.signer, step.signer, 1]);
            step.target = dice.pick(&[step.target, step.target, step.target, 6]);
        }
        step.pick = dice.word() as u16;
        step
    }

    /// The bytes to submit. `last` is the record before it.
    pub fn record(&self, world: &World, last: &[u8]) -> Vec<u8> {
        self.record_in(Form::New, world, last)
    }

    /// The same in either form, in which replies differ and nothing else.
    pub fn record_in(&self, form: Form, world: &World, last: &[u8]) -> Vec<u8> {
        let bytes = match self.kind() {
            AGAIN => last.to_vec(),
            AGAIN_LATER => {
                let mut again = last.to_vec();
                if let Some(now) = again.get_mut(4..12) {
                    now.copy_from_slice(&View::new(world).clock().to_le_bytes());
                }
                again
            }
            _ => encode(&self.submission(form, world)).to_vec(),
        };
        damaged(bytes, self.damage, &mut Dice::new(self.pick()))
    }

    pub(crate) fn pick(&self) -> u64 {
        u64::from(self.pick)
    }

    pub(crate) fn kind(&self) -> u8 {
        self.op % KINDS
    }

    /// The fields; they may well be malformed.
    fn submission(&self, form: Form, world: &World) -> Submission {
        let view = View::new(world);
        let now = self.now(&view);
        let op = match self.kind() {
            ACCEPT | DISPUTE | OTHER_FORM => self.reply(form).0,
            kind => kind + 1,
        };
        if op == 9 {
            return self.sweep(&view, now);
        }
        let (issued, expires) = self.window(now);
        let escrow = view
            .escrow_in_time(now, self.pick())
            .or_else(|| view.escrow(true, self.pick()))
            .or_else(|| view.escrow(false, self.pick()));
        let receipt = match op {
            7 | 8 => self.answered(&view, now),
            _ => None,
        };
        let link = if op == 6 { self.claim_link(&view) } else { 0 };
        let linked = if link == 0 {
            None
        } else {
            view.escrow(false, link.wrapping_sub(1))
        };
        let natural = match op {
            4 | 5 => escrow.map(|escrow| escrow.from),
            6 => linked
                .map(|escrow| escrow.to)
                .or_else(|| view.any_wallet(self.pick())),
            7 | 8 => receipt.map(|receipt| receipt.requester),
            2 | 3 => self.payer(&view),
            12 if self.signer == OWN_SIGNER => self.to_close(&view, now),
            _ => Some(1),
        };
        let signer = self.signer(&view, natural.unwrap_or(7));
        let target = match op {
            4 | 5 => self.row(escrow.map(|row| row.number), view.escrow_count()),
            7 | 8 => self.row(receipt.map(|row| row.number), view.receipt_count()),
            10 if view.system_frozen() && self.target < 8 => 0,
            10 | 11 => self.party(&view, signer, view.any_wallet(self.pick())),
            12 => self.party(&view, signer, self.to_close(&view, now)),
            _ => self.party(&view, signer, linked.map(|row| row.from)),
        };
        let (signer, nonce) = self.nonce(&view, signer);
        let until = match op {
            3 => self.escrow_deadline(now),
            6 => self.acceptance_deadline(now, issued, linked.map(|row| row.deadline)),
            _ => self.unused(self.until),
        };
        Submission {
            op,
            flags: self.flag_bits(form, &view, op, target),
            now,
            signer,
            nonce,
            issued,
            expires,
            target,
            amount: self.amount(&view, op, signer, now),
            until,
            link: match op {
                6 => link,
                11 => self.cap(self.link),
                _ => self.unused(self.link),
            },
            hash: if op == 6 {
                [self.pick(), 2, 3, u64::MAX]
            } else {
                [0; 4]
            },
        }
    }
}
