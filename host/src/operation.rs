//! The eleven operations.

use std::fmt;

macro_rules! operations {
    ($($number:literal $variant:ident $name:literal $doc:literal;)*) => {
        /// What a submission asks for.
        #[non_exhaustive]
        #[derive(Clone, Copy, Debug, PartialEq, Eq, PartialOrd, Ord, Hash)]
        pub enum Operation {
            $(
                #[doc = $doc]
                $variant = $number,
            )*
        }

        impl Operation {
            /// Every operation, in the order of their numbers.
            pub const ALL: &'static [Operation] = &[$(Operation::$variant),*];

            /// The operation with this number. There is none with 0 or 8, nor above the last.
            pub fn from_number(number: u8) -> Option<Operation> {
                match number {
                    $($number => Some(Operation::$variant),)*
                    _ => None,
                }
            }

            /// Its name, as `open`.
            pub fn name(self) -> &'static str {
                match self {
                    $(Operation::$variant => $name,)*
                }
            }
        }
    };
}

// there is no 8: it was the dispute, and 7 the accept, before the two became one reply
operations! {
    1 Grant "grant" "An admin makes new credits and gives them to a wallet.";
    2 Transfer "transfer" "The signer pays another wallet.";
    3 Open "open" "The signer locks credits in an escrow for another wallet.";
    4 Release "release" "An open escrow pays its recipient.";
    5 Refund "refund" "An open escrow goes back to its sender.";
    6 Claim "claim" "A provider claims work done for a requester: a receipt.";
    7 Reply "reply" "The requester accepts a receipt, which releases its escrow, or disputes it.";
    9 Sweep "sweep" "Closes receipts and escrows whose deadlines have passed.";
    10 Freeze "freeze" "An admin freezes or thaws a wallet or the whole system.";
    11 Caps "caps" "An admin sets a wallet's caps.";
    12 Close "close" "An admin closes an empty wallet for good.";
}

/// The rows of a [report](crate::Report)'s grid: row 0, and one for each number up to the last
/// operation's. Row 8 is no operation's, and nothing is counted in it. A later operation widens the
/// grid by its line above.
pub const GRID_ROWS: usize = Operation::ALL[Operation::ALL.len() - 1] as usize + 1;

// they stand in the order of their numbers, so the last has the highest
const _: () = {
    let mut place = 1;
    while place < Operation::ALL.len() {
        assert!((Operation::ALL[place - 1] as usize) < Operation::ALL[place] as usize);
        place += 1;
    }
};

impl Operation {
    /// Its number in a record, 1 to 12 without 8.
    pub fn number(self) -> u8 {
        self as u8
    }

    /// Whether its record has an envelope: a signer, a nonce, a window and a signature. Only a
    /// sweep has none.
    pub fn has_envelope(self) -> bool {
        self != Operation::Sweep
    }
}

impl fmt::Display for Operation {
    fn fmt(&self, f: &mut fmt::Formatter<'_>) -> fmt::Result {
        f.write_str(self.name())
    }
}
