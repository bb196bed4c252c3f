//! Row numbers. Each table has a type of its own, so that none is taken for another.

use std::fmt;

macro_rules! number {
    ($(#[$doc:meta])* $name:ident) => {
        $(#[$doc])*
        #[repr(C)]
        #[derive(Clone, Copy, Debug, Default, PartialEq, Eq, PartialOrd, Ord, Hash)]
        pub struct $name(pub u64);

        impl From<u64> for $name {
            fn from(number: u64) -> Self {
                $name(number)
            }
        }

        impl From<$name> for u64 {
            fn from(number: $name) -> Self {
                number.0
            }
        }

        impl fmt::Display for $name {
            fn fmt(&self, f: &mut fmt::Formatter<'_>) -> fmt::Result {
                self.0.fmt(f)
            }
        }
    };
}

number! {
    /// The number of a wallet's row, counted from 1. A wallet's *id*, by which records name it, is
    /// a plain `u64`.
    WalletNumber
}

number! {
    /// The number of an escrow: its row, counted from 1. The word of a settled open is one.
    EscrowNumber
}

number! {
    /// The number of a receipt: its row, counted from 1. The word of a settled claim is one.
    ReceiptNumber
}
