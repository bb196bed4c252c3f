//! Submissions about receipts: a provider claims work done, and the requester replies.

use std::fmt;

use crate::envelope::Envelope;
use crate::numbers::{EscrowNumber, ReceiptNumber};
use crate::operation::Operation;
use crate::submission::{enveloped, Submission};

/// What a provider claims, for [`Submission::claim`].
#[derive(Clone, Copy, Debug, PartialEq, Eq, Hash)]
pub struct Claim {
    /// The wallet for which the work was done.
    pub requester: u64,
    /// The last moment at which the requester can accept or dispute the receipt.
    pub until: u64,
    /// The escrow that acceptance releases.
    pub escrow: Option<EscrowNumber>,
    /// The hash of the work.
    pub hash: [u8; 32],
    /// Whether a sweep after the deadline accepts the receipt, where it would otherwise expire.
    pub auto_accept: bool,
}

/// What the requester of a receipt replies: flag bit 2 of a [reply](Operation::Reply).
#[derive(Clone, Copy, Debug, PartialEq, Eq, Hash)]
pub enum Reply {
    /// The receipt is accepted: the bit is set.
    Accept,
    /// The receipt is disputed: the bit is clear.
    Dispute,
}

impl Reply {
    /// Which of the two these flags of a reply say. Of a record that is malformed they say what was
    /// meant.
    pub fn from_flags(flags: u8) -> Reply {
        if flags & Submission::ACCEPT != 0 {
            Reply::Accept
        } else {
            Reply::Dispute
        }
    }

    /// Its name, as `accept`.
    pub fn name(self) -> &'static str {
        match self {
            Reply::Accept => "accept",
            Reply::Dispute => "dispute",
        }
    }
}

impl fmt::Display for Reply {
    fn fmt(&self, f: &mut fmt::Formatter<'_>) -> fmt::Result {
        f.write_str(self.name())
    }
}

impl Submission {
    /// Claims work done; the signer is the provider.
    pub fn claim(envelope: Envelope, claim: Claim) -> Submission {
        let mut submission = Submission {
            target: claim.requester,
            until: claim.until,
            link: claim.escrow.map_or(0, u64::from),
            hash: words_of(&claim.hash),
            ..enveloped(Operation::Claim, envelope)
        };
        if claim.auto_accept {
            submission.flags |= Submission::AUTO_ACCEPT;
        }
        submission
    }

    /// Accepts a receipt; the signer is its requester. It is refused after the receipt's acceptance
    /// deadline, as a [dispute](Submission::dispute) is.
    pub fn accept(envelope: Envelope, receipt: ReceiptNumber) -> Submission {
        let mut submission = replying(envelope, receipt);
        submission.flags |= Submission::ACCEPT;
        submission
    }

    /// Disputes a receipt, for a reason that the host has been given; the signer is its requester.
    ///
    /// The receipt's acceptance deadline is the last moment for a reply. A later one is refused, also
    /// if no sweep has closed the receipt yet. Only a sweep does then.
    ///
    /// ```
    /// # use milebeacon::{Answer, Claim, Envelope, Ledger, ReceiptNumber, ReceiptState, Refusal};
    /// # use milebeacon::{Sizes, Submission};
    /// # let mut ledger = Ledger::new(Sizes::PROGRAM)?;
    /// # let now = 1_700_000_000_000;
    /// # for (nonce, wallet) in [(1, 7), (2, 8)] {
    /// #     let admin = Envelope::new(now, 1, nonce).by_admin();
    /// #     ledger.settle(&Submission::grant(admin, wallet, 500)).settled()?;
    /// # }
    /// let deadline = now + 3_600_000;
    /// let work = Claim {
    ///     requester: 7,
    ///     until: deadline,
    ///     escrow: None,
    ///     hash: [3; 32],
    ///     auto_accept: false,
    /// };
    /// let claim = Submission::claim(Envelope::new(now, 8, 1), work);
    /// let receipt = ReceiptNumber(ledger.settle(&claim).settled()?);
    /// let dispute = |now| Submission::dispute(Envelope::new(now, 7, 1), receipt, true);
    ///
    /// let mut in_time = ledger.clone();
    /// assert_eq!(in_time.settle(&dispute(deadline)), Answer::Settled(0));
    ///
    /// let late = ledger.settle(&dispute(deadline + 1));
    /// assert_eq!(late, Answer::Refused(Refusal::AcceptanceClosed));
    /// ledger.settle(&Submission::sweep(deadline + 1, 10)).settled()?;
    /// let state = ledger.receipt(receipt).and_then(|row| row.state());
    /// assert_eq!(state, Some(ReceiptState::Expired));
    /// # Ok::<(), Refusal>(())
    /// ```
    pub fn dispute(envelope: Envelope, receipt: ReceiptNumber, reason_given: bool) -> Submission {
        let mut submission = replying(envelope, receipt);
        if reason_given {
            submission.flags |= Submission::REASON;
        }
        submission
    }

    /// Which reply it is; none for another operation.
    ///
    /// Both are one operation, and its number in a record and in the journal does not tell them
    /// apart.
    ///
    /// ```
    /// use milebeacon::{Envelope, Operation, ReceiptNumber, Reply, Submission};
    ///
    /// let envelope = Envelope::new(1_000, 7, 1);
    /// let accept = Submission::accept(envelope, ReceiptNumber(1));
    /// let dispute = Submission::dispute(envelope, ReceiptNumber(1), true);
    /// assert_eq!((accept.op, dispute.op), (7, 7));
    /// assert_eq!(accept.operation(), Some(Operation::Reply));
    /// assert_eq!(accept.reply(), Some(Reply::Accept));
    /// assert_eq!(dispute.reply(), Some(Reply::Dispute));
    /// assert_eq!(Submission::sweep(1_000, 1).reply(), None);
    ///
    /// // a reason is a dispute's
    /// let mut both = accept;
    /// both.flags |= Submission::REASON;
    /// assert!(both.to_record().is_err());
    /// ```
    pub fn reply(&self) -> Option<Reply> {
        match self.operation() {
            Some(Operation::Reply) => Some(Reply::from_flags(self.flags)),
            _ => None,
        }
    }
}

/// What both replies have in common, which is a dispute with no reason.
fn replying(envelope: Envelope, receipt: ReceiptNumber) -> Submission {
    Submission {
        target: receipt.0,
        ..enveloped(Operation::Reply, envelope)
    }
}

/// Hash words are little-endian groups of 8.
fn words_of(hash: &[u8; 32]) -> [u64; 4] {
    let mut words = [0; 4];
    for (word, group) in words.iter_mut().zip(hash.chunks_exact(8)) {
        for &byte in group.iter().rev() {
            *word = *word << 8 | u64::from(byte);
        }
    }
    words
}
