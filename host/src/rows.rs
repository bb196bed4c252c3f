//! Rows of the caller's tables, with their words by name.
//!
//! A view borrows the table and copies nothing. Its words are what stands there: of a ledger that
//! is not sound, a state or a flag may be no state and no flag.

use std::fmt;

macro_rules! row {
    (
        $(#[$doc:meta])*
        $name:ident, $words:literal;
        $($(#[$word_doc:meta])* $getter:ident = $place:literal;)*
    ) => {
        $(#[$doc])*
        #[derive(Clone, Copy, PartialEq, Eq, Hash)]
        pub struct $name<'a>(&'a [u64; $words]);

        impl<'a> $name<'a> {
            /// The words of one row.
            pub const WORDS: usize = $words;

            /// The row that `words` are; none if there are more or fewer than a row has.
            pub fn new(words: &'a [u64]) -> Option<Self> {
                words.try_into().ok().map($name)
            }

            /// The words of the table, in order.
            pub fn words(&self) -> &'a [u64; $words] {
                self.0
            }

            $(
                $(#[$word_doc])*
                pub fn $getter(&self) -> u64 {
                    self.0[$place]
                }
            )*
        }

        impl fmt::Debug for $name<'_> {
            fn fmt(&self, f: &mut fmt::Formatter<'_>) -> fmt::Result {
                f.debug_struct(stringify!($name))
                    $(.field(stringify!($getter), &self.$getter()))*
                    .finish()
            }
        }
    };
}

row! {
    /// A wallet.
    WalletRow, 6;
    /// The party whose wallet it is.
    id = 0;
    /// Credits that can be paid out.
    balance = 1;
    /// Credits locked in open escrows.
    locked = 2;
    /// 1 if frozen, 2 if closed, 0 if neither.
    frozen_word = 3;
    /// The most that one payment may be.
    per_transaction_cap = 4;
    /// The most that the transfers and opens of 24 hours may come to.
    daily_cap = 5;
}

row! {
    /// An escrow.
    EscrowRow, 8;
    /// The wallet that opened it.
    from = 0;
    /// The wallet that a release pays.
    to = 1;
    /// The credits locked.
    amount = 2;
    /// The last moment at which it can be released or refunded.
    deadline = 3;
    /// The number of its state.
    state_word = 4;
    /// When it was opened.
    opened_at = 5;
    /// When it was closed; 0 while open.
    closed_at = 6;
    /// Who closed it; 0 while open and after a sweep.
    closing_signer = 7;
}

row! {
    /// A receipt.
    ReceiptRow, 14;
    /// Who did the work.
    provider = 0;
    /// Who asked for it.
    requester = 1;
    /// The escrow that acceptance releases, or 0.
    link = 2;
    /// The last moment at which it can be accepted or disputed.
    acceptance_deadline = 3;
    /// 1 if a sweep after the deadline accepts it, 0 if it lets it expire.
    auto_accept_word = 4;
    /// The number of its state.
    state_word = 5;
    /// When it was claimed.
    claimed_at = 6;
    /// When it was closed; 0 while pending.
    closed_at = 7;
    /// Who closed it; 0 while pending and after a sweep.
    closing_signer = 8;
    /// 29 if it was accepted but its escrow could not be released, else 0.
    release_code = 9;
}

row! {
    /// A journal row: a settled submission.
    JournalRow, 8;
    /// Who signed.
    signer = 0;
    /// The signer's number for it.
    nonce = 1;
    /// The number of its operation. Of a reply it is 7, and the receipt's state says which one.
    operation_word = 2;
    /// Its target.
    target = 3;
    /// Its amount.
    amount = 4;
    /// When it settled.
    settled_at = 5;
    /// The answer word.
    answer_word = 6;
    /// Its link.
    link = 7;
}

macro_rules! state {
    ($(#[$doc:meta])* $name:ident, $($number:literal $variant:ident $text:literal $word_doc:literal;)*) => {
        $(#[$doc])*
        #[derive(Clone, Copy, Debug, PartialEq, Eq, Hash)]
        pub enum $name {
            $(
                #[doc = $word_doc]
                $variant = $number,
            )*
        }

        impl $name {
            /// The state with this number.
            pub fn from_number(number: u64) -> Option<$name> {
                match number {
                    $($number => Some($name::$variant),)*
                    _ => None,
                }
            }

            /// Its number in the table.
            pub fn number(self) -> u64 {
                self as u64
            }
        }

        impl fmt::Display for $name {
            fn fmt(&self, f: &mut fmt::Formatter<'_>) -> fmt::Result {
                f.pad(match self {
                    $($name::$variant => $text,)*
                })
            }
        }
    };
}

state! {
    /// The state of an escrow.
    EscrowState,
    1 Open "open" "Its credits are locked.";
    2 Released "released" "They went to the recipient.";
    3 Refunded "refunded" "They went back to the sender.";
    4 Expired "expired" "A sweep gave them back to the sender.";
}

state! {
    /// The state of a receipt.
    ReceiptState,
    1 Pending "pending" "Waiting for the requester, and after its deadline for a sweep.";
    2 Accepted "accepted" "Accepted, by the requester or by a sweep.";
    3 Disputed "disputed" "Disputed by the requester.";
    4 Expired "expired" "The requester did not reply in time, and a sweep closed it.";
}

impl WalletRow<'_> {
    /// Whether the wallet is frozen: it can be thawed again, which a closed one cannot.
    pub fn is_frozen(&self) -> bool {
        self.frozen_word() == 1
    }

    /// Whether the wallet is closed, for good.
    pub fn is_closed(&self) -> bool {
        self.frozen_word() == 2
    }
}

impl EscrowRow<'_> {
    /// The escrow's state; none if the word is no state.
    pub fn state(&self) -> Option<EscrowState> {
        EscrowState::from_number(self.state_word())
    }

    /// Whether its deadline has passed at `now`.
    pub fn is_stale(&self, now: u64) -> bool {
        self.deadline() < now
    }
}

impl<'a> ReceiptRow<'a> {
    /// The receipt's state; none if the word is no state.
    pub fn state(&self) -> Option<ReceiptState> {
        ReceiptState::from_number(self.state_word())
    }

    /// Whether its acceptance deadline has passed at `now`: then it can no longer be accepted or
    /// disputed, and if it is pending a sweep closes it.
    pub fn is_stale(&self, now: u64) -> bool {
        self.acceptance_deadline() < now
    }

    /// The escrow that acceptance releases.
    pub fn escrow(&self) -> Option<crate::EscrowNumber> {
        Some(self.link())
            .filter(|&link| link != 0)
            .map(crate::EscrowNumber)
    }

    /// Whether a sweep after the deadline accepts it.
    pub fn is_auto_accept(&self) -> bool {
        self.auto_accept_word() == 1
    }

    /// The hash of the work, as little-endian groups of 8 bytes.
    pub fn hash(&self) -> &'a [u64] {
        &self.0[10..]
    }
}
