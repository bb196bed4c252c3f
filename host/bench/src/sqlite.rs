//! The same stream on SQLite: a transaction for each submission, with the nonce guarded by
//! `UNIQUE (signer, nonce)`.
//!
//! SQLite looks up rows by index and does not check that the whole ledger is sound. In a file it
//! also writes what is settled to disk, which the core leaves to its host.

use std::path::Path;

use milebeacon::{Operation, Sizes, Submission};
use rusqlite::{params, Connection, Result};

use bench::clock::timed;
use bench::fill::{filled, Ids, NOW};
use bench::stream::hold_and_release;

use crate::measure::Effort;

/// Microseconds for one settled submission.
#[derive(Clone, Copy, Debug)]
pub struct Stores {
    pub memory: f64,
    /// A file with a write-ahead log, `synchronous = NORMAL`.
    pub wal: f64,
    /// The same with `synchronous = FULL`: on disk before the answer.
    pub wal_full: f64,
}

const SCHEMA: &str = "
    CREATE TABLE wallets (id INTEGER PRIMARY KEY, balance INTEGER NOT NULL, locked INTEGER NOT NULL,
        frozen INTEGER NOT NULL, tx_cap INTEGER NOT NULL, daily_cap INTEGER NOT NULL);
    CREATE TABLE escrows (number INTEGER PRIMARY KEY, sender INTEGER NOT NULL,
        recipient INTEGER NOT NULL, amount INTEGER NOT NULL, deadline INTEGER NOT NULL,
        state INTEGER NOT NULL, opened_at INTEGER NOT NULL, closed_at INTEGER NOT NULL,
        closed_by INTEGER NOT NULL);
    CREATE TABLE journal (signer INTEGER NOT NULL, nonce INTEGER NOT NULL, op INTEGER NOT NULL,
        target INTEGER NOT NULL, amount INTEGER NOT NULL, settled_at INTEGER NOT NULL,
        word INTEGER NOT NULL, link INTEGER NOT NULL, UNIQUE (signer, nonce));
    CREATE INDEX spent ON journal (signer, op, settled_at);
";

/// Measures each kind of store at these sizes.
pub fn costs(sizes: Sizes, effort: Effort) -> Result<Stores> {
    let file = std::env::temp_dir().join(format!("milebeacon-bench-{}.db", std::process::id()));
    let mut least = Stores {
        memory: f64::MAX,
        wal: f64::MAX,
        wal_full: f64::MAX,
    };
    for _ in 0..effort.turns.div_euclid(4).max(1) {
        let mut memory = Connection::open_in_memory()?;
        least.memory = least.memory.min(one(&mut memory, sizes)?);
        least.wal = least.wal.min(in_file(&file, "NORMAL", sizes)?);
        least.wal_full = least.wal_full.min(in_file(&file, "FULL", sizes)?);
    }
    Ok(least)
}

fn in_file(path: &Path, synchronous: &str, sizes: Sizes) -> Result<f64> {
    let mut connection = Connection::open(path)?;
    connection.pragma_update(None, "journal_mode", "WAL")?;
    connection.pragma_update(None, "synchronous", synchronous)?;
    let cost = one(&mut connection, sizes);
    drop(connection);
    for ending in ["", "-wal", "-shm"] {
        let mut name = path.as_os_str().to_owned();
        name.push(ending);
        let _ = std::fs::remove_file(name);
    }
    cost
}

/// Fills the store as the tables are filled, and times the stream.
fn one(connection: &mut Connection, sizes: Sizes) -> Result<f64> {
    connection.execute_batch(SCHEMA)?;
    fill(connection, sizes)?;
    let stream = hold_and_release(sizes, Ids::InARow);
    let mut settled = Ok(());
    let cost = timed(stream.len(), || {
        settled = stream
            .iter()
            .try_for_each(|submission| settle(connection, submission));
    });
    settled.map(|()| cost)
}

fn fill(connection: &mut Connection, sizes: Sizes) -> Result<()> {
    let ledger = filled(sizes, Ids::InARow);
    let transaction = connection.transaction()?;
    for w in ledger.wallets() {
        transaction
            .prepare_cached("INSERT INTO wallets VALUES (?, ?, ?, 0, ?, ?)")?
            .execute(params![
                w.id(),
                w.balance(),
                w.locked(),
                w.per_transaction_cap(),
                w.daily_cap()
            ])?;
    }
    for (number, e) in (1u64..).zip(ledger.escrows()) {
        transaction
            .prepare_cached("INSERT INTO escrows VALUES (?, ?, ?, ?, ?, ?, ?, ?, ?)")?
            .execute(params![
                number,
                e.from(),
                e.to(),
                e.amount(),
                e.deadline(),
                e.state_word(),
                e.opened_at(),
                e.closed_at(),
                e.closing_signer()
            ])?;
    }
    for j in ledger.journal() {
        transaction
            .prepare_cached("INSERT INTO journal VALUES (?, ?, ?, ?, ?, ?, ?, ?)")?
            .execute(params![
                j.signer(),
                j.nonce(),
                j.operation_word(),
                j.target(),
                j.amount(),
                j.settled_at(),
                j.answer_word(),
                j.link()
            ])?;
    }
    transaction.commit()
}

/// One submission, with the checks that this stream can meet.
fn settle(connection: &mut Connection, s: &Submission) -> Result<()> {
    let transaction = connection.transaction()?;
    let word = match s.operation() {
        Some(Operation::Open) => open(&transaction, s)?,
        _ => release(&transaction, s)?,
    };
    transaction
        .prepare_cached("INSERT INTO journal VALUES (?, ?, ?, ?, ?, ?, ?, ?)")?
        .execute(params![
            s.signer, s.nonce, s.op, s.target, s.amount, s.now, word, s.link
        ])?;
    transaction.commit()
}

fn open(connection: &Connection, s: &Submission) -> Result<u64> {
    let (balance, frozen, tx_cap, daily_cap): (u64, u64, u64, u64) = connection
        .prepare_cached("SELECT balance, frozen, tx_cap, daily_cap FROM wallets WHERE id = ?")?
        .query_row([s.signer], |row| {
            Ok((row.get(0)?, row.get(1)?, row.get(2)?, row.get(3)?))
        })?;
    let spent: u64 = connection
        .prepare_cached(
            "SELECT COALESCE(SUM(amount), 0) FROM journal
             WHERE signer = ? AND op IN (2, 3) AND settled_at >= ?",
        )?
        .query_row([s.signer, NOW - 86_400_000], |row| row.get(0))?;
    assert!(frozen == 0 && s.amount <= balance && s.amount <= tx_cap);
    assert!(s.amount + spent <= daily_cap && s.until > s.now);
    connection
        .prepare_cached(
            "UPDATE wallets SET balance = balance - ?, locked = locked + ? WHERE id = ?",
        )?
        .execute([s.amount, s.amount, s.signer])?;
    connection
        .prepare_cached("INSERT INTO escrows VALUES (NULL, ?, ?, ?, ?, 1, ?, 0, 0)")?
        .execute([s.signer, s.target, s.amount, s.until, s.now])?;
    Ok(connection.last_insert_rowid() as u64)
}

fn release(connection: &Connection, s: &Submission) -> Result<u64> {
    let (from, to, amount, deadline, state): (u64, u64, u64, u64, u64) = connection
        .prepare_cached(
            "SELECT sender, recipient, amount, deadline, state FROM escrows WHERE number = ?",
        )?
        .query_row([s.target], |row| {
            Ok((
                row.get(0)?,
                row.get(1)?,
                row.get(2)?,
                row.get(3)?,
                row.get(4)?,
            ))
        })?;
    assert!(from == s.signer && state == 1 && deadline >= s.now);
    connection
        .prepare_cached(
            "UPDATE escrows SET state = 2, closed_at = ?, closed_by = ? WHERE number = ?",
        )?
        .execute([s.now, s.signer, s.target])?;
    connection
        .prepare_cached("UPDATE wallets SET locked = locked - ? WHERE id = ?")?
        .execute([amount, from])?;
    connection
        .prepare_cached("UPDATE wallets SET balance = balance + ? WHERE id = ?")?
        .execute([amount, to])?;
    Ok(0)
}
