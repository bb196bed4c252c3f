//! What each knob of a step means, given the tables as they stand.

use milebeacon::{Submission, WalletRow};

use crate::parties::{CLOSED, CLOSED_SIGNER, FROZEN_SIGNER};
use crate::step::{Step, DAY_MS, LAST_TIME, MOST_AMOUNT, MOST_GRANTED};
use crate::view::View;

const WEEK_MS: u64 = 604_800_000;

impl Step {
    /// What an operation does not use: rarely not 0.
    pub(crate) fn unused(&self, knob: u8) -> u64 {
        u64::from(knob == 15)
    }

    pub(crate) fn now(&self, view: &View<'_>) -> u64 {
        let clock = view.clock();
        let escrow = view
            .escrow(true, self.pick())
            .map_or(clock, |row| row.deadline);
        let entry = view.entry(self.pick()).map_or(clock, |row| row.settled_at);
        let later = |moment: u64| if moment > LAST_TIME { clock } else { moment };
        // a hold of whoever signs if this step is a payment, unless its nonce brings another signer
        let after_hold = |span: u64| {
            let payer = self.signer(view, self.payer(view).unwrap_or(7));
            let hold = view.hold(payer, self.pick() / 3);
            hold.map_or(clock, |settled_at| later(settled_at + span).max(clock))
        };
        if let Some(moment) = self.around_its_window(view) {
            return later(moment).max(clock);
        }
        match self.tick {
            1 => later(clock + 1),
            2 => later(clock + 1_000),
            3 => later(clock + 60_000),
            4 => later(clock + 299_999),
            5 => later(clock + 3_600_000),
            6 => later(clock + DAY_MS),
            7 => later(clock + WEEK_MS),
            8 => clock.saturating_sub(1),
            9 => escrow.max(clock),
            10 => later(escrow + 1).max(clock),
            13 => later(entry + DAY_MS).max(clock),
            14 => later(entry + DAY_MS + 1).max(clock),
            15 if self.pick % 64 == 0 => LAST_TIME,
            16 if self.pick % 4 == 0 => LAST_TIME + 1,
            17 => after_hold(DAY_MS),
            18 => after_hold(DAY_MS + 1),
            _ => clock,
        }
    }

    pub(crate) fn window(&self, now: u64) -> (u64, u64) {
        let ago = |span: u64| now.saturating_sub(span);
        match self.window {
            1 => (now + 30_000, now + 60_000),
            2 => (now + 30_001, now + 60_000),
            3 => (ago(1_000), now),
            4 => (ago(1_000), ago(1)),
            5 => (ago(5_000), ago(5_000) + 3_600_000),
            6 => (ago(5_000), ago(5_000) + 3_600_001),
            7 => (now, ago(1)),
            8 => (LAST_TIME + 1, LAST_TIME + 1),
            9 => (now, LAST_TIME + 1),
            10 => (ago(300_000), now + 60_000),
            11 => (ago(300_001), now + 60_000),
            12 => (ago(3_600_000), now),
            13 => (ago(3_600_001), now),
            _ => (now, (now + 60_000).min(LAST_TIME)),
        }
    }

    pub(crate) fn signer(&self, view: &View<'_>, natural: u64) -> u64 {
        let of = |kind: fn(&WalletRow<'_>) -> bool| view.wallet(kind, self.pick() / 7);
        match self.signer {
            1 | 2 => view.any_wallet(self.pick() / 7).unwrap_or(natural),
            3 => unknown(view, 1_000 + self.pick()),
            4 => 0,
            5 => u64::MAX,
            CLOSED_SIGNER => of(|row| row.is_closed()).unwrap_or(natural),
            FROZEN_SIGNER => of(|row| row.is_frozen()).unwrap_or(natural),
            _ => natural,
        }
    }

    pub(crate) fn nonce(&self, view: &View<'_>, signer: u64) -> (u64, u64) {
        let fresh = view.journal_count().wrapping_add(1_000_000);
        let newest = view.journal_count().wrapping_sub(1);
        let entry = match self.nonce {
            6 | 8 => view.entry(newest),
            7 | 9 => view.entry(0),
            10 => view.unwritten(true),
            11 => view.unwritten(false),
            _ => view.entry(self.pick()),
        };
        match (self.nonce, entry) {
            (1 | 2 | 6 | 7 | 10 | 11, Some(entry)) => (entry.signer, entry.nonce),
            (3 | 8 | 9, Some(entry)) => (signer, entry.nonce),
            (4, _) => (signer, 0),
            (5, _) => (signer, u64::MAX),
            _ => (signer, fresh),
        }
    }

    pub(crate) fn party(&self, view: &View<'_>, signer: u64, natural: Option<u64>) -> u64 {
        if self.target == CLOSED {
            let other = |row: &WalletRow<'_>| row.is_closed() && row.id() != signer;
            if let Some(closed) = view.wallet(other, self.pick() / 5) {
                return closed;
            }
        }
        match self.target {
            1 | 2 => unknown(view, 2 + self.pick() % 200),
            3 => 0,
            4 => signer,
            5 => u64::MAX,
            6 => view.any_wallet(self.pick() / 5).unwrap_or(8),
            _ => natural
                .or_else(|| (0..8).find_map(|k| other(view, self.pick() + k, signer)))
                .unwrap_or_else(|| unknown(view, 2 + self.pick() % 50)),
        }
    }

    pub(crate) fn row(&self, natural: Option<u64>, count: u64) -> u64 {
        match self.target {
            1 | 2 => 1 + self.pick() % count.max(1),
            3 => count.wrapping_add(1),
            4 => 0,
            5 => u64::MAX,
            6 => count,
            _ => natural.unwrap_or(1),
        }
    }

    pub(crate) fn claim_link(&self, view: &View<'_>) -> u64 {
        let any = |open| {
            view.escrow(open, self.pick())
                .map_or(0, |escrow| escrow.number)
        };
        match self.link {
            1 | 2 | 3 => any(true),
            4 | 5 => any(false),
            6 => view.escrow_count().wrapping_add(1),
            7 => u64::MAX,
            _ => self.closed_link(view).unwrap_or(0),
        }
    }

    pub(crate) fn amount(&self, view: &View<'_>, op: u8, signer: u64, now: u64) -> u64 {
        match op {
            1 => match self.amount {
                1 => 0,
                2 => MOST_AMOUNT,
                3 => MOST_AMOUNT + 1,
                4 => MOST_GRANTED.saturating_sub(view.granted()).min(MOST_AMOUNT),
                5 => MOST_GRANTED.saturating_sub(view.granted()).min(MOST_AMOUNT) + 1,
                6 => u64::MAX,
                7 => 1,
                _ => 1_000 * (1 + self.pick() % 1_000),
            },
            2 | 3 => self.payment(view, signer, now),
            11 => self.cap(self.amount),
            _ => self.unused(self.amount),
        }
    }

    pub(crate) fn payment(&self, view: &View<'_>, signer: u64, now: u64) -> u64 {
        let (balance, cap, daily) = view.means(signer).unwrap_or((50, 100, 200));
        let left = daily.saturating_sub(view.counted(signer, now));
        match self.amount {
            1 => 0,
            2 => balance,
            3 => balance.wrapping_add(1),
            4 => cap,
            5 => cap.wrapping_add(1),
            6 => left,
            7 | 8 => left.wrapping_add(1),
            9 => MOST_AMOUNT,
            10 => MOST_AMOUNT + 1,
            11 => u64::MAX,
            12 => cap.min(balance),
            13 => left.min(balance),
            _ => 1 + self.pick() % balance.clamp(1, 100),
        }
    }

    pub(crate) fn cap(&self, knob: u8) -> u64 {
        match knob {
            1 => 0,
            2 => MOST_AMOUNT,
            3 => MOST_AMOUNT + 1,
            4 => u64::MAX,
            5 => 1,
            _ => 100 * (1 + self.pick() % 50),
        }
    }

    pub(crate) fn escrow_deadline(&self, now: u64) -> u64 {
        match self.until {
            1 => now,
            2 => now + 1,
            3 => now + WEEK_MS,
            4 => now + WEEK_MS + 1,
            5 => now.saturating_sub(1),
            6 => 0,
            7 => LAST_TIME,
            8 => LAST_TIME + 1,
            9 | 10 => now + 10 + self.pick() % 1_000,
            _ => now + 300_000 + 1_000 * (self.pick() % 4_000),
        }
    }

    pub(crate) fn acceptance_deadline(&self, now: u64, issued: u64, escrow: Option<u64>) -> u64 {
        match self.until {
            1 => issued + 299_999,
            2 => issued + WEEK_MS,
            3 => issued + WEEK_MS + 1,
            4 => now,
            5 => now.saturating_sub(1),
            6 => escrow.unwrap_or(now),
            7 => escrow.map_or(now, |deadline| deadline + 1),
            8 => LAST_TIME + 1,
            9 => 0,
            _ => issued + 300_000,
        }
    }

    pub(crate) fn sweep(&self, view: &View<'_>, now: u64) -> Submission {
        let amount = match self.amount {
            1 => 0,
            2 => 1_000,
            3 => 1_001,
            4 => view.due(now),
            5 => view.due(now) + 1,
            6 => u64::MAX,
            7 => view.due(now).saturating_sub(1),
            _ => 1 + self.pick() % 4,
        };
        let signer = self.unused(self.signer);
        Submission {
            op: 9,
            flags: self.unused(self.flags) as u8,
            now,
            signer,
            amount,
            ..Submission::default()
        }
    }
}

/// A party with no wallet, if `from` or one soon after it is.
fn unknown(view: &View<'_>, from: u64) -> u64 {
    (from..from + 64)
        .find(|&id| !view.is_wallet(id))
        .unwrap_or(from)
}

fn other(view: &View<'_>, pick: u64, signer: u64) -> Option<u64> {
    view.any_wallet(pick).filter(|&id| id != signer)
}
