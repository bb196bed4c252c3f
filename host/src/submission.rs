//! A submission: the fields of a record, and a way to make one for each operation. Those about
//! receipts are in `claim`.

use crate::envelope::Envelope;
use crate::numbers::EscrowNumber;
use crate::operation::Operation;

/// The fields of a submission record.
///
/// Make one by the function of its operation; it fills in what the operation uses and leaves the
/// rest 0, as the rules ask. The fields are open, so that any record can be taken apart and
/// changed: whether they have the form of their operation is decided when a record is
/// [written](Submission::to_record).
///
/// ```
/// use milebeacon::{Envelope, Operation, Submission};
///
/// let now = 1_700_000_000_000;
/// let open = Submission::open(Envelope::new(now, 7, 1), 8, 20_000_000, now + 3_600_000);
/// assert_eq!(open.operation(), Some(Operation::Open));
///
/// let record = open.to_record()?;
/// assert_eq!(record[..4], [0xA7, 0x3C, 3, 1]);
/// assert_eq!(Submission::read(&record)?, open);
/// # Ok::<(), milebeacon::Refusal>(())
/// ```
#[repr(C)]
#[derive(Clone, Copy, Debug, Default, PartialEq, Eq, Hash)]
pub struct Submission {
    /// The operation's number.
    pub op: u8,
    /// The flag bits: [`SIGNED`](Submission::SIGNED) and the others.
    pub flags: u8,
    /// The host's clock.
    pub now: u64,
    /// The party that signed.
    pub signer: u64,
    /// The signer's number for this record.
    pub nonce: u64,
    /// When the record was issued.
    pub issued: u64,
    /// Until when it may settle.
    pub expires: u64,
    /// A wallet's id, an escrow's number or a receipt's number, by the operation.
    pub target: u64,
    /// The amount; a sweep's limit; a cap per transaction.
    pub amount: u64,
    /// A deadline.
    pub until: u64,
    /// The escrow of a claim, or 0; a daily cap.
    pub link: u64,
    /// The hash of the work claimed, as little-endian groups of 8 bytes.
    pub hash: [u64; 4],
}

/// What [`Submission::freeze`] freezes or thaws.
#[derive(Clone, Copy, Debug, PartialEq, Eq, Hash)]
pub enum Freezable {
    /// Everything but freezing, setting caps and closing wallets.
    System,
    /// The payments of one wallet.
    Wallet(u64),
}

impl Submission {
    /// Flag bit 0: a valid signature is held.
    pub const SIGNED: u8 = 1;
    /// Flag bit 1: the signer is an admin.
    pub const ADMIN: u8 = 2;
    /// Flag bit 2, of a claim: accept it when its time is over.
    pub const AUTO_ACCEPT: u8 = 4;
    /// Flag bit 2, of a reply: accept, where a clear bit disputes.
    pub const ACCEPT: u8 = 4;
    /// Flag bit 2, of a freeze: freeze, where a clear bit thaws.
    pub const FREEZE: u8 = 4;
    /// Flag bit 3, of a reply that disputes: a reason was given. One that accepts is malformed with
    /// it.
    pub const REASON: u8 = 8;

    /// New credits for the wallet `target`. Admins only.
    pub fn grant(envelope: Envelope, target: u64, amount: u64) -> Submission {
        Submission {
            target,
            amount,
            ..by_admin(Operation::Grant, envelope)
        }
    }

    /// Pays `amount` to the wallet `target`.
    pub fn transfer(envelope: Envelope, target: u64, amount: u64) -> Submission {
        Submission {
            target,
            amount,
            ..enveloped(Operation::Transfer, envelope)
        }
    }

    /// Locks `amount` for the wallet `target` until the deadline `until`.
    pub fn open(envelope: Envelope, target: u64, amount: u64, until: u64) -> Submission {
        Submission {
            target,
            amount,
            until,
            ..enveloped(Operation::Open, envelope)
        }
    }

    /// Pays an open escrow to its recipient. For its sender and for admins.
    pub fn release(envelope: Envelope, escrow: EscrowNumber) -> Submission {
        Submission {
            target: escrow.0,
            ..by_admin(Operation::Release, envelope)
        }
    }

    /// Gives an open escrow back to its sender. For its sender and for admins.
    pub fn refund(envelope: Envelope, escrow: EscrowNumber) -> Submission {
        Submission {
            target: escrow.0,
            ..by_admin(Operation::Refund, envelope)
        }
    }

    /// Closes at most `limit` receipts and escrows whose deadlines have passed. Nobody signs it.
    pub fn sweep(now: u64, limit: u64) -> Submission {
        Submission {
            op: Operation::Sweep.number(),
            now,
            amount: limit,
            ..Submission::default()
        }
    }

    /// Freezes (`true`) or thaws a wallet or the system. Admins only.
    pub fn freeze(envelope: Envelope, what: Freezable, frozen: bool) -> Submission {
        let target = match what {
            Freezable::System => 0,
            Freezable::Wallet(id) => id,
        };
        let mut submission = Submission {
            target,
            ..by_admin(Operation::Freeze, envelope)
        };
        if frozen {
            submission.flags |= Submission::FREEZE;
        }
        submission
    }

    /// Sets the caps of the wallet `target`: for one payment, and for the transfers and opens of
    /// 24 hours together. Admins only.
    ///
    /// An open takes room under the daily cap for 24 hours, and a refund does not give it back:
    ///
    /// ```
    /// # use milebeacon::{Answer, Envelope, EscrowNumber, Ledger, Refusal, Sizes, Submission};
    /// # let mut ledger = Ledger::new(Sizes::PROGRAM)?;
    /// let now = 1_700_000_000_000;
    /// let admin = |nonce| Envelope::new(now, 1, nonce).by_admin();
    /// let skipper = |nonce| Envelope::new(now, 7, nonce);
    /// ledger.settle(&Submission::grant(admin(1), 7, 500));
    /// ledger.settle(&Submission::caps(admin(2), 7, 100, 100));
    ///
    /// let hold = Submission::open(skipper(1), 8, 100, now + 3_600_000);
    /// assert_eq!(ledger.settle(&hold), Answer::Settled(1));
    /// let refund = Submission::refund(skipper(2), EscrowNumber(1));
    /// assert_eq!(ledger.settle(&refund), Answer::Settled(0));
    /// let transfer = Submission::transfer(skipper(3), 8, 1);
    /// assert_eq!(ledger.settle(&transfer), Answer::Refused(Refusal::DailyCapExceeded));
    /// # Ok::<(), Refusal>(())
    /// ```
    pub fn caps(envelope: Envelope, target: u64, per_transaction: u64, daily: u64) -> Submission {
        Submission {
            target,
            amount: per_transaction,
            link: daily,
            ..by_admin(Operation::Caps, envelope)
        }
    }

    /// Closes the wallet `target`, of a crew that has left. Admins only, also while the system is
    /// frozen.
    ///
    /// The wallet has to be empty: no balance, no locked credits, and no open escrow to it, not even
    /// one past its deadline that no sweep has ended yet.
    ///
    /// It keeps its row, and is closed for good. From then on a record that names it is refused: as
    /// the target of a grant, transfer, open, claim, freeze, caps or close, and as the signer of a
    /// transfer, open or claim. Receipts of before can still be accepted and disputed.
    ///
    /// ```
    /// # use milebeacon::{Answer, Envelope, Ledger, Refusal, Sizes, Submission};
    /// # let mut ledger = Ledger::new(Sizes::PROGRAM)?;
    /// let now = 1_700_000_000_000;
    /// let admin = |nonce| Envelope::new(now, 1, nonce).by_admin();
    /// ledger.settle(&Submission::grant(admin(1), 7, 500)).settled()?;
    /// let close = Submission::close(admin(2), 7);
    /// assert_eq!(ledger.settle(&close), Answer::Refused(Refusal::WalletNotEmpty));
    ///
    /// let all = Submission::transfer(Envelope::new(now, 7, 1), 8, 500);
    /// ledger.settle(&all).settled()?;
    /// assert_eq!(ledger.settle(&close), Answer::Settled(0)); // the refusal used up no nonce
    ///
    /// let back = Submission::transfer(Envelope::new(now, 8, 1), 7, 500);
    /// assert_eq!(ledger.settle(&back), Answer::Refused(Refusal::WalletClosed));
    /// # Ok::<(), Refusal>(())
    /// ```
    pub fn close(envelope: Envelope, target: u64) -> Submission {
        Submission {
            target,
            ..by_admin(Operation::Close, envelope)
        }
    }

    /// The operation, if its number is one.
    pub fn operation(&self) -> Option<Operation> {
        Operation::from_number(self.op)
    }

    /// Whether a flag bit is set.
    pub fn has(&self, flag: u8) -> bool {
        self.flags & flag != 0
    }

    /// The 32 bytes of the hash.
    pub fn hash_bytes(&self) -> [u8; 32] {
        let mut bytes = [0; 32];
        for (group, word) in bytes.chunks_exact_mut(8).zip(self.hash) {
            group.copy_from_slice(&word.to_le_bytes());
        }
        bytes
    }
}

/// The envelope's fields, for an operation that does not ask whether the signer is an admin.
pub(crate) fn enveloped(operation: Operation, envelope: Envelope) -> Submission {
    Submission {
        op: operation.number(),
        flags: if envelope.signed {
            Submission::SIGNED
        } else {
            0
        },
        now: envelope.now,
        signer: envelope.signer,
        nonce: envelope.nonce,
        issued: envelope.issued,
        expires: envelope.expires,
        ..Submission::default()
    }
}

/// The envelope's fields, for an operation that asks.
fn by_admin(operation: Operation, envelope: Envelope) -> Submission {
    let mut submission = enveloped(operation, envelope);
    if envelope.admin {
        submission.flags |= Submission::ADMIN;
    }
    submission
}
