//! `beacon run FILE`: settles a file of records and shows what it leaves, and records it if asked.

use std::fmt::Write as _;
use std::process::ExitCode;

use milebeacon::{Answer, Ledger, Record, Recorder, Refusal, Sizes, WalletRow, RECORD_BYTES};

use crate::files;
use crate::kind::Kind;
use crate::log::Log;
use crate::problem::Problem;
use crate::show::{credits, entries, table};

/// Settles the records on a fresh ledger, prints each answer and then the tables. Refusals are
/// answers and no problem; a short last piece is one, and is answered as the rules say.
///
/// With a recording, each entry is in its file before the next record is settled, and all are on the
/// disk before an answer is printed. If an entry cannot be written nothing more is settled: the
/// answers before it are printed, and the problem says how the file was left, also if it may not be
/// on the disk. A short last piece cannot be an entry, and is not recorded.
pub fn run(
    path: &str,
    sizes: Sizes,
    recording: Option<&str>,
    output: &mut Vec<u8>,
) -> Result<ExitCode, Problem> {
    let bytes = files::read(path)?;
    let refused = |refusal: Refusal| Problem::Input(refusal.to_string());
    let ledger = Ledger::new(sizes).map_err(refused)?;
    // last, so that nothing is made for a command that comes to nothing
    let log = Log::new(recording)?;
    let mut recorder = Recorder::start(ledger, &log).map_err(refused)?;
    let mut text = String::new();
    let records = bytes.chunks_exact(RECORD_BYTES);
    let short = records.remainder();
    let mut ordinal = 0;
    for record in records {
        let record: &Record = record.try_into().expect("a record's length");
        match recorder.submit(record) {
            Ok(answer) => {
                ordinal += 1;
                text += &line(ordinal, record, answer);
            }
            Err(unrecorded) => {
                let state = log.break_off();
                output.extend_from_slice(text.as_bytes());
                return Err(Problem::Input(format!("{unrecorded}; {state}")));
            }
        }
    }
    let (mut ledger, _) = recorder.into_parts();
    log.sync()?;
    if !short.is_empty() {
        text += &line(ordinal + 1, short, ledger.submit(short));
    }
    text += &tables(&ledger);
    if let Some(path) = recording {
        let _ = writeln!(text, "recorded {} in {path}", entries(ordinal));
    }
    output.extend_from_slice(text.as_bytes());
    let unrecorded = recording.map_or("", |_| ", and not recorded");
    match short.len() {
        0 => Ok(ExitCode::SUCCESS),
        short => Err(Problem::Input(format!(
            "{path} ends with a short piece of {short} bytes, answered as malformed{unrecorded}"
        ))),
    }
}

/// A record's answer, on a line.
fn line(ordinal: u64, piece: &[u8], answer: Answer) -> String {
    format!(
        "{ordinal}: {}: {} {}, word {}, status {}\n",
        Kind::of(piece).map_or("no operation", Kind::name),
        answer.number(),
        answer.name(),
        answer.word(),
        answer.status()
    )
}

/// The wallets, escrows and receipts, and the totals.
fn tables(ledger: &Ledger) -> String {
    let mut text = wallets(ledger);
    text += &escrows(ledger);
    text += &receipts(ledger);
    let _ = write!(
        text,
        "\ngranted {}: balances {}, locked {}\nclock {}, {} submissions in the journal{}\n",
        credits(ledger.granted_total()),
        credits(u64::try_from(ledger.balance_total()).unwrap_or(u64::MAX)),
        credits(u64::try_from(ledger.locked_total()).unwrap_or(u64::MAX)),
        ledger.last_clock(),
        ledger.journal().count(),
        if ledger.is_frozen() {
            ", the system is frozen"
        } else {
            ""
        }
    );
    text
}

fn wallets(ledger: &Ledger) -> String {
    let names = [
        "wallet",
        "balance",
        "locked",
        "state",
        "cap a payment",
        "cap a day",
    ];
    let rows: Vec<Vec<String>> = ledger
        .wallets()
        .map(|wallet| {
            vec![
                wallet.id().to_string(),
                credits(wallet.balance()),
                credits(wallet.locked()),
                state(wallet).to_owned(),
                credits(wallet.per_transaction_cap()),
                credits(wallet.daily_cap()),
            ]
        })
        .collect();
    table("wallets", &names, &rows)
}

fn state(wallet: WalletRow<'_>) -> &'static str {
    if wallet.is_closed() {
        "closed"
    } else if wallet.is_frozen() {
        "frozen"
    } else {
        "live"
    }
}

fn escrows(ledger: &Ledger) -> String {
    let names = [
        "escrow", "from", "to", "amount", "deadline", "state", "opened", "closed", "by",
    ];
    let rows: Vec<Vec<String>> = (1..)
        .zip(ledger.escrows())
        .map(|(number, escrow)| {
            vec![
                format!("{number}"),
                escrow.from().to_string(),
                escrow.to().to_string(),
                credits(escrow.amount()),
                escrow.deadline().to_string(),
                escrow
                    .state()
                    .map_or_else(|| "?".to_owned(), |state| state.to_string()),
                escrow.opened_at().to_string(),
                or_dash(escrow.closed_at()),
                or_dash(escrow.closing_signer()),
            ]
        })
        .collect();
    table("escrows", &names, &rows)
}

fn receipts(ledger: &Ledger) -> String {
    let names = [
        "receipt",
        "provider",
        "requester",
        "escrow",
        "deadline",
        "auto",
        "state",
        "claimed",
        "closed",
        "by",
        "code",
    ];
    let rows: Vec<Vec<String>> = (1..)
        .zip(ledger.receipts())
        .map(|(number, receipt)| {
            vec![
                format!("{number}"),
                receipt.provider().to_string(),
                receipt.requester().to_string(),
                or_dash(receipt.link()),
                receipt.acceptance_deadline().to_string(),
                yes(receipt.is_auto_accept()),
                receipt
                    .state()
                    .map_or_else(|| "?".to_owned(), |state| state.to_string()),
                receipt.claimed_at().to_string(),
                or_dash(receipt.closed_at()),
                or_dash(receipt.closing_signer()),
                or_dash(receipt.release_code()),
            ]
        })
        .collect();
    table("receipts", &names, &rows)
}

fn yes(is: bool) -> String {
    if is { "yes" } else { "no" }.to_owned()
}

fn or_dash(number: u64) -> String {
    if number == 0 {
        "-".to_owned()
    } else {
        number.to_string()
    }
}
