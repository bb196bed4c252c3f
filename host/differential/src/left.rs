//! What is left in a wallet, which keeps it from being closed.

use std::collections::BTreeSet;

use milebeacon::{EscrowState, Ledger, WalletRow};

/// What is left in one wallet.
#[derive(Clone, Copy, Debug, Default, PartialEq, Eq)]
pub struct Left {
    /// Balance.
    pub balance: bool,
    /// Locked credits.
    pub locked: bool,
    /// An open escrow to it whose deadline has not passed.
    pub escrow: bool,
    /// An open escrow to it whose deadline has passed.
    pub stale_escrow: bool,
}

impl Left {
    /// Nothing.
    pub const NOTHING: Left = Left {
        balance: false,
        locked: false,
        escrow: false,
        stale_escrow: false,
    };
    /// Balance alone.
    pub const BALANCE: Left = Left {
        balance: true,
        ..Left::NOTHING
    };
    /// Locked credits alone.
    pub const LOCKED: Left = Left {
        locked: true,
        ..Left::NOTHING
    };
    /// Open escrows to it alone, all in time.
    pub const ESCROW: Left = Left {
        escrow: true,
        ..Left::NOTHING
    };
    /// Open escrows to it alone, all stale.
    pub const STALE_ESCROW: Left = Left {
        stale_escrow: true,
        ..Left::NOTHING
    };
}

/// The parties that open escrows of a ledger are to.
pub struct Recipients {
    in_time: BTreeSet<u64>,
    stale: BTreeSet<u64>,
}

impl Recipients {
    /// Those of this ledger at this moment.
    pub fn of(ledger: &Ledger<&[u64]>, now: u64) -> Recipients {
        let open = |stale: bool| {
            let rows = ledger.escrows();
            let open = rows.filter(|row| row.state() == Some(EscrowState::Open));
            let open = open.filter(move |row| row.is_stale(now) == stale);
            open.map(|row| row.to()).collect()
        };
        Recipients {
            in_time: open(false),
            stale: open(true),
        }
    }

    /// What is left in a wallet.
    pub fn left(&self, wallet: &WalletRow<'_>) -> Left {
        Left {
            balance: wallet.balance() != 0,
            locked: wallet.locked() != 0,
            escrow: self.in_time.contains(&wallet.id()),
            stale_escrow: self.stale.contains(&wallet.id()),
        }
    }
}
