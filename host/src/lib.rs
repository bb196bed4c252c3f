//! Safe calls of the proved settlement core.
//!
//! The core is written and proved in Rattle and linked as a static archive. It settles
//! *submissions* (grants, transfers, escrows, work receipts) on a *ledger* of five tables of 64-bit
//! words, which the host owns and lends to each call. Each call either settles a submission or
//! refuses it with one of the numbered [refusals](Refusal) and changes nothing.
//!
//! Amounts are micro-credits and times are milliseconds. The core has no clock, checks no
//! signatures and keeps nothing between calls: the host says what time it is, whether a signature
//! was valid and whether the signer is an admin.
//!
//! ```
//! use milebeacon::{Envelope, EscrowNumber, EscrowState, Ledger, Sizes, Submission};
//!
//! let mut ledger = Ledger::new(Sizes::PROGRAM)?;
//! let now = 1_700_000_000_000;
//! let hour = 3_600_000;
//!
//! let admin = Envelope::new(now, 1, 1).by_admin();
//! ledger.settle(&Submission::grant(admin, 7, 50_000_000)).settled()?;
//!
//! let open = Submission::open(Envelope::new(now, 7, 1), 8, 20_000_000, now + hour);
//! let escrow = EscrowNumber(ledger.settle(&open).settled()?);
//!
//! ledger.settle(&Submission::release(Envelope::new(now, 7, 2), escrow)).settled()?;
//! assert_eq!(ledger.escrow(escrow).unwrap().state(), Some(EscrowState::Released));
//! assert_eq!(ledger.wallet(8).live().unwrap().balance(), 20_000_000);
//! # Ok::<(), milebeacon::Refusal>(())
//! ```
//!
//! A host keeps a [`Recording`] of what it submitted and was answered: a [`Recorder`] writes it while
//! the ledger settles, and [`Ledger::replay`] says whether the core gives the same answers again. A
//! [`Report`] counts the entries of any number of recordings by operation and answer, and adds up the
//! credits that they moved. [`Recording::convert`] turns a recording of the old form of replies into
//! today's.

#![deny(unsafe_code)]
#![warn(missing_docs)]

mod answer;
mod claim;
mod entry;
mod envelope;
pub mod ffi;
mod figure;
mod ledger;
pub mod lookup;
mod numbers;
mod operation;
mod record;
mod recorder;
mod recording;
mod replay;
mod report;
mod rows;
mod submission;
mod tables;
mod wallet;

pub use answer::{status, Answer, Refusal, ANSWERS};
pub use claim::{Claim, Reply};
pub use entry::{Entries, Entry, Recorded, ENTRY_BYTES};
pub use envelope::Envelope;
pub use figure::{Cell, Figure, Named};
pub use ledger::Ledger;
pub use numbers::{EscrowNumber, ReceiptNumber, WalletNumber};
pub use operation::{Operation, GRID_ROWS};
pub use record::{Record, RECORD_BYTES};
pub use recorder::{Recorder, Unrecorded};
pub use recording::{CutShort, Recording};
pub use replay::Replay;
pub use report::{Added, Report};
pub use rows::{EscrowRow, EscrowState, JournalRow, ReceiptRow, ReceiptState, WalletRow};
pub use submission::{Freezable, Submission};
pub use tables::{Sizes, Tables, HEADER_WORDS};
pub use wallet::WalletState;
