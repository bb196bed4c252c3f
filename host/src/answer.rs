//! What the core answers: settled with a word, or refused.

use std::error::Error;
use std::fmt;

use crate::ffi;

macro_rules! refusals {
    ($($number:literal $variant:ident $name:literal $reason:literal;)*) => {
        /// Why a submission was refused. A refusal changes no table and uses up no nonce.
        ///
        /// Of several refusals that apply, the core gives the first in the order of its checks,
        /// which is that of [`Refusal::ALL`]. Refusals compare by their numbers, which is another
        /// order: a later refusal gets the next number, and its check any place.
        ///
        /// ```
        /// use milebeacon::Refusal;
        ///
        /// // a dispute after the window and without a reason is answered 41
        /// let place = |refusal| Refusal::ALL.iter().position(|&checked| checked == refusal);
        /// let (closed, reason) = (Refusal::AcceptanceClosed, Refusal::DisputeReasonRequired);
        /// assert!(place(closed) < place(reason));
        /// assert!(closed > reason);
        /// assert_eq!((closed.number(), reason.number()), (41, 35));
        /// ```
        #[non_exhaustive]
        #[derive(Clone, Copy, Debug, PartialEq, Eq, PartialOrd, Ord, Hash)]
        pub enum Refusal {
            $(
                #[doc = concat!("`", $name, "`: ", $reason, ".")]
                $variant = $number,
            )*
        }

        impl Refusal {
            /// Every refusal, in the order in which the core checks for them. It is not the order
            /// of their numbers.
            pub const ALL: &'static [Refusal] = &[$(Refusal::$variant),*];

            /// The refusal with this number.
            pub fn from_number(number: u64) -> Option<Refusal> {
                match number {
                    $($number => Some(Refusal::$variant),)*
                    _ => None,
                }
            }

            /// Its name in the rules, as `nonce_seen`.
            pub fn name(self) -> &'static str {
                match self {
                    $(Refusal::$variant => $name,)*
                }
            }

            /// When it is given, in words.
            pub fn reason(self) -> &'static str {
                match self {
                    $(Refusal::$variant => $reason,)*
                }
            }
        }
    };
}

// in the order of the checks
refusals! {
    1 BadTable "bad_table" "a table's slice has a wrong length";
    2 LedgerDamaged "ledger_damaged" "the ledger is not sound";
    3 MalformedRecord "malformed_record" "the record does not have the form of its operation";
    4 ClockBack "clock_back" "now is before the ledger's last clock";
    5 SystemFrozen "system_frozen" "the system is frozen";
    6 InvalidSignature "invalid_signature" "no valid signature is held";
    7 NotAdmin "not_admin" "only an admin may do this";
    8 EnvelopeNotYetValid "envelope_not_yet_valid" "the envelope was issued more than 30 s after now";
    9 EnvelopeExpired "envelope_expired" "the envelope has expired";
    10 EnvelopeWindowTooLong "envelope_window_too_long" "the envelope is valid for more than an hour";
    11 NonceSeen "nonce_seen" "a record with this signer and nonce has settled before";
    12 AmountOutOfRange "amount_out_of_range" "the amount, limit or cap is out of range";
    13 SenderNotFound "sender_not_found" "the signer has no wallet";
    14 SenderFrozen "sender_frozen" "the signer's wallet is frozen";
    15 RecipientInvalid "recipient_invalid" "the recipient is 0 or the signer";
    16 WalletNotFound "wallet_not_found" "the target has no wallet";
    43 WalletClosed "wallet_closed" "the signer's or the target's wallet is closed";
    42 WalletNotEmpty "wallet_not_empty" "the target's wallet has balance, locked credits or an open escrow to it";
    17 InsufficientBalance "insufficient_balance" "the signer's balance is less than the amount";
    18 PerTxCapExceeded "per_tx_cap_exceeded" "the amount is over the signer's cap per transaction";
    19 DailyCapExceeded "daily_cap_exceeded" "the amount is over what is left of the signer's daily cap";
    20 EscrowDeadlinePast "escrow_deadline_past" "the escrow's deadline is not after now";
    21 EscrowDeadlineExceedsMax "escrow_deadline_exceeds_max" "the escrow's deadline is more than 7 days after now";
    22 ProviderNotFound "provider_not_found" "the provider has no wallet";
    23 RequesterNotFound "requester_not_found" "the requester has no wallet";
    24 AcceptanceWindowTooShort "acceptance_window_too_short" "the acceptance deadline is less than 5 minutes after issue";
    25 AcceptanceWindowTooLong "acceptance_window_too_long" "the acceptance deadline is more than 7 days after issue";
    26 AcceptanceDeadlinePast "acceptance_deadline_past" "the acceptance deadline is before now";
    27 EscrowNotFound "escrow_not_found" "there is no such escrow";
    28 EscrowSignerNotAuthorized "escrow_signer_not_authorized" "the signer neither opened the escrow nor is an admin";
    29 EscrowNotOpen "escrow_not_open" "the escrow is closed or past its deadline";
    30 EscrowDidMismatch "escrow_did_mismatch" "the escrow is between other parties";
    31 AcceptanceDeadlineExceedsEscrow "acceptance_deadline_exceeds_escrow" "the acceptance deadline is after the escrow's";
    32 ReceiptNotFound "receipt_not_found" "there is no such receipt";
    33 ReceiptSignerNotAuthorized "receipt_signer_not_authorized" "the signer is not the receipt's requester";
    34 ReceiptNotPending "receipt_not_pending" "the receipt is closed";
    41 AcceptanceClosed "acceptance_closed" "the receipt is past its acceptance deadline";
    35 DisputeReasonRequired "dispute_reason_required" "a dispute needs a reason";
    36 GrantLimit "grant_limit" "the granted total would pass its limit";
    37 WalletTableFull "wallet_table_full" "the wallet table has no room for the target";
    38 EscrowTableFull "escrow_table_full" "the escrow table is full";
    39 ReceiptTableFull "receipt_table_full" "the receipt table is full";
    40 JournalTableFull "journal_table_full" "the journal is full";
}

/// How many answers there are, settled and each refusal: the columns of a
/// [report](crate::Report)'s grid. Every answer's number is below it. A later refusal widens the grid
/// by its line above.
pub const ANSWERS: usize = Refusal::ALL.len() + 1;

// none has a number beyond them, whatever the order of the checks
const _: () = {
    let mut place = 0;
    while place < Refusal::ALL.len() {
        assert!((Refusal::ALL[place] as usize) < ANSWERS);
        place += 1;
    }
};

impl Refusal {
    /// Its number in the rules, at least 1 and below [`ANSWERS`].
    pub fn number(self) -> u64 {
        self as u64
    }

    /// Its status, as of an HTTP reply.
    pub fn status(self) -> u64 {
        ffi::status(self.number())
    }
}

impl fmt::Display for Refusal {
    fn fmt(&self, f: &mut fmt::Formatter<'_>) -> fmt::Result {
        write!(f, "{}: {}", self.name(), self.reason())
    }
}

impl Error for Refusal {}

/// The answer to a submission.
///
/// ```
/// use milebeacon::{Answer, Refusal};
///
/// let settled = Answer::Settled(3);
/// assert_eq!((settled.number(), settled.word(), settled.status()), (0, 3, 200));
///
/// let retry = Answer::Refused(Refusal::NonceSeen);
/// assert_eq!((retry.number(), retry.word(), retry.status()), (11, 0, 409));
/// assert_eq!(retry.name(), "nonce_seen");
/// assert_eq!(retry.settled(), Err(Refusal::NonceSeen));
/// ```
#[must_use = "a submission may have been refused"]
#[derive(Clone, Copy, Debug, PartialEq, Eq, Hash)]
pub enum Answer {
    /// Settled. The word is the new escrow's number (open), the new receipt's (claim), the released
    /// escrow's (accept, or 0), the number of rows closed (sweep), and otherwise 0.
    Settled(u64),
    /// Refused, and nothing has changed.
    Refused(Refusal),
}

impl Answer {
    /// The answer with this number and word. There is none for a number of [`ANSWERS`] or more, nor
    /// for a refusal with a word other than 0.
    pub fn from_parts(number: u64, word: u64) -> Option<Answer> {
        match (number, word) {
            (0, word) => Some(Answer::Settled(word)),
            (number, 0) => Refusal::from_number(number).map(Answer::Refused),
            _ => None,
        }
    }

    /// What the core answers.
    pub(crate) fn from_core(answer: ffi::Answer) -> Answer {
        Answer::from_parts(answer.number, answer.word).expect(
            "the core gives an answer of the rules, and a refusal has word 0: it is proved to",
        )
    }

    /// Its number in the rules: 0 if settled.
    pub fn number(self) -> u64 {
        match self {
            Answer::Settled(_) => 0,
            Answer::Refused(refusal) => refusal.number(),
        }
    }

    /// The answer word; 0 for a refusal.
    pub fn word(self) -> u64 {
        match self {
            Answer::Settled(word) => word,
            Answer::Refused(_) => 0,
        }
    }

    /// Its name in the rules, or `settled`.
    pub fn name(self) -> &'static str {
        match self {
            Answer::Settled(_) => "settled",
            Answer::Refused(refusal) => refusal.name(),
        }
    }

    /// Its status, as of an HTTP reply: 200 if settled.
    pub fn status(self) -> u64 {
        ffi::status(self.number())
    }

    /// Whether the submission settled.
    pub fn is_settled(self) -> bool {
        matches!(self, Answer::Settled(_))
    }

    /// The word, or the refusal as an error to pass on with `?`.
    pub fn settled(self) -> Result<u64, Refusal> {
        match self {
            Answer::Settled(word) => Ok(word),
            Answer::Refused(refusal) => Err(refusal),
        }
    }
}

impl From<Answer> for Result<u64, Refusal> {
    fn from(answer: Answer) -> Self {
        answer.settled()
    }
}

impl fmt::Display for Answer {
    fn fmt(&self, f: &mut fmt::Formatter<'_>) -> fmt::Result {
        match self {
            Answer::Settled(word) => write!(f, "settled, word {word}"),
            Answer::Refused(refusal) => refusal.fmt(f),
        }
    }
}

/// The status of an answer's number, as of an HTTP reply; 500 for a number that no answer has.
///
/// ```
/// assert_eq!([0, 11, 43, 44].map(milebeacon::status), [200, 409, 403, 500]);
/// ```
pub fn status(number: u64) -> u64 {
    ffi::status(number)
}
