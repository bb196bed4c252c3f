//! What looking up a wallet finds.

use crate::numbers::WalletNumber;
use crate::rows::WalletRow;

/// What looking up a party's wallet finds: none, a live one, or one that is closed.
///
/// A found wallet is the number of its row ([`lookup::wallet_state`](crate::lookup::wallet_state)),
/// or the row itself ([`Ledger::wallet`](crate::Ledger::wallet)). A frozen wallet is live.
///
/// ```
/// use milebeacon::{Envelope, Ledger, Sizes, Submission, WalletState};
///
/// fn what_to_say<T: AsRef<[u64]>>(ledger: &Ledger<T>, id: u64) -> String {
///     match ledger.wallet(id) {
///         WalletState::Missing => format!("{id} has no wallet yet: a payment to it makes one"),
///         WalletState::Live(row) => format!("{id} has {}", row.balance()),
///         WalletState::Closed(_) => format!("{id} has left, and can be paid no more"),
///     }
/// }
///
/// let mut ledger = Ledger::new(Sizes::PROGRAM)?;
/// let admin = |nonce| Envelope::new(1_000, 1, nonce).by_admin();
/// let crew = Envelope::new(1_000, 7, 1);
/// assert_eq!(what_to_say(&ledger, 7), "7 has no wallet yet: a payment to it makes one");
///
/// ledger.settle(&Submission::grant(admin(1), 7, 500)).settled()?;
/// assert_eq!(what_to_say(&ledger, 7), "7 has 500");
///
/// ledger.settle(&Submission::transfer(crew, 8, 500)).settled()?;
/// ledger.settle(&Submission::close(admin(2), 7)).settled()?;
/// assert_eq!(what_to_say(&ledger, 7), "7 has left, and can be paid no more");
/// # Ok::<(), milebeacon::Refusal>(())
/// ```
#[must_use = "the wallet may be missing or closed"]
#[derive(Clone, Copy, Debug, PartialEq, Eq, Hash)]
pub enum WalletState<W = WalletNumber> {
    /// The party has no wallet.
    Missing,
    /// It has one that is not closed. It may be frozen.
    Live(W),
    /// It had one, which an admin has closed for good.
    Closed(W),
}

impl<W> WalletState<W> {
    /// Whether there is no wallet.
    pub fn is_missing(&self) -> bool {
        matches!(self, WalletState::Missing)
    }

    /// Whether there is one that is not closed.
    pub fn is_live(&self) -> bool {
        matches!(self, WalletState::Live(_))
    }

    /// Whether there is one that is closed.
    pub fn is_closed(&self) -> bool {
        matches!(self, WalletState::Closed(_))
    }

    /// The wallet if it is live; none if it is missing or closed.
    pub fn live(self) -> Option<W> {
        match self {
            WalletState::Live(wallet) => Some(wallet),
            WalletState::Missing | WalletState::Closed(_) => None,
        }
    }

    /// The same with what `of` makes of a wallet that is there, live or closed.
    pub fn map<V>(self, of: impl FnOnce(W) -> V) -> WalletState<V> {
        match self {
            WalletState::Missing => WalletState::Missing,
            WalletState::Live(wallet) => WalletState::Live(of(wallet)),
            WalletState::Closed(wallet) => WalletState::Closed(of(wallet)),
        }
    }

    fn found(self) -> Option<W> {
        match self {
            WalletState::Missing => None,
            WalletState::Live(wallet) | WalletState::Closed(wallet) => Some(wallet),
        }
    }
}

impl WalletState<WalletNumber> {
    /// The number of the wallet's row, live or closed; none if it is missing.
    pub fn number(self) -> Option<WalletNumber> {
        self.found()
    }
}

impl<'a> WalletState<WalletRow<'a>> {
    /// The wallet's row, live or closed; none if it is missing.
    pub fn row(self) -> Option<WalletRow<'a>> {
        self.found()
    }
}
