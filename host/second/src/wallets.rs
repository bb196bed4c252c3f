//! Request 6/13 of the change requests, "Closed wallets": what looking up a
//! wallet tells.

/// "Looking up a wallet must from now on tell a closed wallet from a missing
/// and a live one, and every caller must act on it." A written one comes with
/// what was asked for, the row's number or the row itself.
#[derive(Clone, Copy, Debug, PartialEq, Eq)]
pub enum FoundWallet<R> {
    /// No written row has the id.
    Missing,
    /// Its frozen word is not 2; it may be frozen.
    Live(R),
    /// "The frozen word becomes 2".
    Closed(R),
}

impl<R> FoundWallet<R> {
    /// A written row, closed or not.
    pub(crate) fn written(row: R, closed: bool) -> FoundWallet<R> {
        if closed {
            FoundWallet::Closed(row)
        } else {
            FoundWallet::Live(row)
        }
    }

    pub fn is_missing(&self) -> bool {
        matches!(self, FoundWallet::Missing)
    }

    pub fn is_closed(&self) -> bool {
        matches!(self, FoundWallet::Closed(_))
    }

    /// For those to whom a closed wallet is a written one as any other.
    pub fn live_or_closed(self) -> Option<R> {
        match self {
            FoundWallet::Missing => None,
            FoundWallet::Live(row) | FoundWallet::Closed(row) => Some(row),
        }
    }
}
