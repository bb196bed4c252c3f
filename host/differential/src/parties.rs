//! Which wallets steps name: live ones, closed ones, and for a close those that are empty or are not
//! in one way.

use milebeacon::{EscrowRow, EscrowState, WalletRow};

use crate::dice::Dice;
use crate::left::Left;
use crate::step::Step;
use crate::view::View;

const GRANT: u8 = 0;
const TRANSFER: u8 = 1;
const OPEN: u8 = 2;
const RELEASE: u8 = 3;
const REFUND: u8 = 4;
const CLAIM: u8 = 5;
const ACCEPT: u8 = 6;
const FREEZE: u8 = 9;
const CAPS: u8 = 10;
const CLOSE: u8 = 11;

/// The knobs of the signer for a party with no wallet, for one whose wallet is closed or frozen, for
/// the one whose wallet is to be closed, and for one that has nothing but balance.
const UNKNOWN_SIGNER: u8 = 3;
pub(crate) const CLOSED_SIGNER: u8 = 6;
pub(crate) const FROZEN_SIGNER: u8 = 7;
pub(crate) const OWN_SIGNER: u8 = 8;
const LEAVING_SIGNER: u8 = 9;

/// The knobs of the target for a party with no wallet, for nobody, for the signer, and for a party
/// whose wallet is closed, to an accept for a receipt that pays or is paid by one; the last is beyond
/// those that mean a frozen system to a freeze.
const UNKNOWN: u8 = 1;
const NOBODY: u8 = 3;
const ITSELF: u8 = 4;
pub(crate) const CLOSED: u8 = 8;

/// Those of a close for a wallet that is not empty, each in one way only, and for a frozen one that
/// is empty.
pub(crate) const WITH_BALANCE: u8 = 9;
const WITH_LOCKED: u8 = 10;
const WITH_ESCROW: u8 = 11;
const WITH_STALE_ESCROW: u8 = 12;
const EMPTY_AND_FROZEN: u8 = 13;

/// The knobs of a claim's link for an open escrow to a closed wallet, and for one from it.
const TO_CLOSED: u8 = 8;
const FROM_CLOSED: u8 = 9;

/// The knob of the amount for as much as the signer may pay at once.
const ALL: u8 = 12;

/// The knobs of the flags without a signature, with the admin's bit turned, and with bit 2 turned.
const NO_SIGNATURE: u8 = 1;
const OTHER_ADMIN: u8 = 2;
const OTHER_FREEZE: u8 = 4;

/// A crew that leaves: it pays all it can to another, and a wallet that is empty is closed.
pub(crate) fn departure(dice: &mut Dice) -> [Step; 2] {
    let pick = dice.word() as u16;
    let payment = Step {
        op: TRANSFER,
        signer: LEAVING_SIGNER,
        amount: ALL,
        pick,
        ..Step::default()
    };
    let close = Step {
        op: CLOSE,
        pick,
        ..Step::default()
    };
    [payment, close]
}

impl Step {
    /// Who signs a payment if nothing else is asked for.
    pub(crate) fn payer(&self, view: &View<'_>) -> Option<u64> {
        let any = view.payer(self.pick());
        if self.signer != LEAVING_SIGNER {
            return any;
        }
        let recipients = view.recipients(view.clock());
        let leaving = |row: &WalletRow<'_>| {
            !row.is_closed() && !row.is_frozen() && recipients.left(row) == Left::BALANCE
        };
        view.wallet(leaving, self.pick()).or(any)
    }

    /// The wallet that a close is about: an empty one, or one that is kept by what the knob says, if
    /// there is such a one.
    pub(crate) fn to_close(&self, view: &View<'_>, now: u64) -> Option<u64> {
        let meant = match self.target {
            WITH_BALANCE => Left::BALANCE,
            WITH_LOCKED => Left::LOCKED,
            WITH_ESCROW => Left::ESCROW,
            WITH_STALE_ESCROW => Left::STALE_ESCROW,
            _ => Left::NOTHING,
        };
        let recipients = view.recipients(now);
        let kind = |row: &WalletRow<'_>| {
            let frozen = self.target != EMPTY_AND_FROZEN || row.is_frozen();
            frozen && !row.is_closed() && recipients.left(row) == meant
        };
        view.wallet(kind, self.pick())
            .or_else(|| view.any_wallet(self.pick()))
    }

    /// The open escrow with a closed wallet that a claim is linked to, if its knob asks for one.
    pub(crate) fn closed_link(&self, view: &View<'_>) -> Option<u64> {
        let party: fn(&EscrowRow<'_>) -> u64 = match self.link {
            TO_CLOSED => |row| row.to(),
            FROM_CLOSED => |row| row.from(),
            _ => return None,
        };
        let meant = |row: &EscrowRow<'_>| {
            row.state() == Some(EscrowState::Open) && view.is_closed(party(row))
        };
        view.escrow_of(meant, self.pick()).map(|row| row.number)
    }

    /// One step in so many is about a closed wallet, or signed by the party that had it; and of those
    /// some are such that another check refuses them too, before or behind.
    pub(crate) fn at_a_closed_wallet(mut self, dice: &mut Dice, once_in: u64) -> Step {
        if !dice.once_in(once_in) {
            return self;
        }
        match self.op {
            GRANT => {
                self.at_either(dice);
                self.amount = dice.pick(&[0, 0, 1, 3, 5, 5]);
            }
            TRANSFER | OPEN => self.payment_at_a_closed_wallet(dice),
            CLAIM => self.claim_at_a_closed_wallet(dice),
            FREEZE => {
                self.at_either(dice);
                self.flags = dice.pick(&[0, OTHER_FREEZE]);
            }
            CAPS => {
                self.at_either(dice);
                self.amount = dice.pick(&[0, 0, 0, 3]);
            }
            CLOSE => self.close_of_any_kind(dice),
            ACCEPT => self.target = CLOSED,
            // by an admin, who need not be a party to the escrow
            RELEASE | REFUND => {
                self.signer = CLOSED_SIGNER;
                self.flags = OTHER_ADMIN;
            }
            _ => return self,
        }
        if dice.once_in(8) {
            self.fail_before(dice);
        }
        self
    }

    /// To a closed wallet, or by the party that had it.
    fn at_either(&mut self, dice: &mut Dice) {
        if dice.once_in(4) {
            self.signer = CLOSED_SIGNER;
        } else {
            self.target = CLOSED;
        }
    }

    /// Mostly refused by 43 alone, or by one check more.
    fn payment_at_a_closed_wallet(&mut self, dice: &mut Dice) {
        (self.signer, self.target) = dice.pick(&[
            (CLOSED_SIGNER, 0),
            (CLOSED_SIGNER, 0),
            (CLOSED_SIGNER, 0),
            (CLOSED_SIGNER, CLOSED),
            (CLOSED_SIGNER, UNKNOWN),
            (CLOSED_SIGNER, NOBODY),
            (CLOSED_SIGNER, ITSELF),
            (0, CLOSED),
            (0, CLOSED),
            (0, CLOSED),
            (UNKNOWN_SIGNER, CLOSED),
            (FROZEN_SIGNER, CLOSED),
        ]);
        // nothing; or one more than the balance, than the cap, than what is left of the day
        self.amount = dice.pick(&[0, 0, 0, 0, 1, 3, 5, 7]);
        self.until = 0;
        if self.op == OPEN && self.amount == 0 {
            // now, or a millisecond too late
            self.until = dice.pick(&[0, 0, 1, 4]);
        }
    }

    /// The same of claims.
    fn claim_at_a_closed_wallet(&mut self, dice: &mut Dice) {
        (self.signer, self.target, self.link) = (0, 0, 0);
        (self.window, self.until) = (0, 0);
        if dice.once_in(3) {
            // its own parties, and a deadline up to the escrow's or beyond it
            self.link = dice.pick(&[TO_CLOSED, FROM_CLOSED]);
            self.until = dice.pick(&[0, 6, 7, 7]);
            return;
        }
        (self.signer, self.target) = dice.pick(&[
            (CLOSED_SIGNER, 0),
            (CLOSED_SIGNER, 0),
            (CLOSED_SIGNER, 0),
            (0, CLOSED),
            (0, CLOSED),
            (0, CLOSED),
            (CLOSED_SIGNER, CLOSED),
            (CLOSED_SIGNER, UNKNOWN),
            (UNKNOWN_SIGNER, CLOSED),
            (CLOSED_SIGNER, NOBODY),
            (CLOSED_SIGNER, ITSELF),
        ]);
        match dice.below(10) {
            // too short, too long, or issued so long ago that it has passed
            0 => self.until = 1,
            1 => self.until = 3,
            2 => (self.window, self.until) = (11, 5),
            // any open escrow, any, one that is not there
            3 => self.link = 1,
            4 => self.link = 4,
            5 => self.link = 6,
            _ => {}
        }
    }

    fn close_of_any_kind(&mut self, dice: &mut Dice) {
        self.target = dice.pick(&[
            0,
            0,
            0,
            0,
            0,
            EMPTY_AND_FROZEN,
            CLOSED,
            CLOSED,
            WITH_BALANCE,
            WITH_LOCKED,
            WITH_ESCROW,
            WITH_STALE_ESCROW,
            NOBODY,
        ]);
        self.signer = dice.pick(&[0, 1, CLOSED_SIGNER, FROZEN_SIGNER, OWN_SIGNER, OWN_SIGNER]);
    }

    /// Refused by one of the checks 4 to 11.
    fn fail_before(&mut self, dice: &mut Dice) {
        match dice.below(6) {
            0 => self.tick = 8,
            1 => self.flags = dice.pick(&[NO_SIGNATURE, OTHER_ADMIN]),
            2 => self.window = 2,
            3 => self.window = 4,
            4 => self.window = 6,
            _ => self.nonce = 6,
        }
    }
}
