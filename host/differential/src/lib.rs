//! The proved core against an independent second program.
//!
//! Both are given the same tables and the same records, and everything is compared: the answer's
//! number, its word, and every word of every table afterwards, written or not.
//!
//! - [`step`] and [`record`] make records: a [`Step`](step::Step) is a few small numbers, of which
//! 0 asks for what would settle and the others for what lies at or beyond a limit of the rules.
//! - [`start`] makes the tables to begin with, fresh or lent with a ledger in them, [`clauses`]
//! breaks them in one clause at a time and [`damage`] anywhere.
//! - [`twin`] does the calls and compares; a [`history`] is a start and steps. [`shrink`] makes one
//! in which a difference was found small, by the skeleton for all such things in [`small`].
//! - [`replay`] records what a history submits and how it is answered, changes the recording, and
//! replays it on other tables. [`report`] adds such recordings to months' reports, and [`convert`]
//! turns recordings of the old form into today's.
//! - [`plan`] puts these together into a run of a given length from a given seed, of one [`mix`] or
//! the other. [`tally`], [`daily`], [`retries`], [`window`], [`replied`], [`coded`], [`closed`],
//! [`closing`], [`departed`] and [`lookups`] say what the run came to.

#![forbid(unsafe_code)]
#![warn(missing_docs)]

pub mod clauses;
pub mod closed;
pub mod closing;
pub mod codec;
pub mod coded;
pub mod convert;
pub mod daily;
pub mod damage;
pub mod departed;
pub mod dice;
mod flags;
pub mod history;
mod knobs;
pub mod left;
pub mod lookups;
pub mod mix;
mod parties;
pub mod plan;
pub mod reached;
pub mod record;
pub mod replay;
pub mod replied;
mod replies;
pub mod report;
pub mod retries;
pub mod shape;
pub mod shrink;
pub mod small;
pub mod start;
pub mod step;
pub mod tally;
pub mod twin;
mod view;
pub mod window;
