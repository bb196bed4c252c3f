//! `beacon replay FILE`: replays a recording and says whether its answers are the core's own.

use std::process::ExitCode;

use milebeacon::{
    status, Entry, Ledger, Recorded, Recording, Refusal, Replay, Sizes, Submission, ENTRY_BYTES,
};

use crate::explain::sentence;
use crate::files;
use crate::problem::Problem;
use crate::show::entries;
use crate::waiting::while_shown;

/// The exit status if an entry disagrees.
pub const DISAGREES: u8 = 3;
/// The exit status if all whole entries agree and the last is cut short.
pub const CUT_SHORT: u8 = 4;

/// Replays the recording on a fresh ledger and prints what was found. A disagreement and a cut are
/// findings and no problem; each has an exit status of its own.
pub fn replay(path: &str, sizes: Sizes, output: &mut Vec<u8>) -> Result<ExitCode, Problem> {
    let recording = Recording::from_bytes(files::read(path)?);
    let refused = |refusal: Refusal| Problem::Input(refusal.to_string());
    let mut ledger = Ledger::new(sizes).map_err(refused)?;
    let what = format!("replaying {}", entries(recording.len() as u64));
    let found = while_shown(&what, || ledger.replay(recording.as_bytes())).map_err(refused)?;
    let (text, code) = match found {
        Replay::AllAgree { .. } => (format!("{found}\n"), ExitCode::SUCCESS),
        Replay::CutShort { .. } => {
            let cut = recording.cut().len();
            let text = format!(
                "{found}; of one more only {cut} of {ENTRY_BYTES} bytes are there, and it was not \
                 replayed\n"
            );
            (text, ExitCode::from(CUT_SHORT))
        }
        Replay::Disagrees {
            entry,
            recorded,
            answered,
        } => {
            let text = disagreement(&recording, entry, recorded, answered.into());
            (text, ExitCode::from(DISAGREES))
        }
    };
    output.extend_from_slice(text.as_bytes());
    Ok(code)
}

/// The entry in words, with both answers, and what lies around it.
fn disagreement(
    recording: &Recording,
    number: u64,
    recorded: Recorded,
    answered: Recorded,
) -> String {
    let before = number.saturating_sub(1);
    let after = (recording.len() as u64).saturating_sub(number);
    let place = usize::try_from(before).unwrap_or(usize::MAX);
    let entry = recording.entries().nth(place);
    let record = match entry {
        Some(entry) => Submission::read(entry.record)
            .map_or_else(|_| "no well-formed record".to_owned(), |s| sentence(&s)),
        None => "no record".to_owned(),
    };
    let mut text = format!(
        "entry {number} disagrees: {record}\n   recorded: {}\n   answered: {}\n",
        in_words(recorded),
        in_words(answered)
    );
    text += &format!(
        "agreeing before it: {}; not replayed after it: {}",
        entries(before),
        entries(after)
    );
    text += match recording.cut().len() {
        0 => "\n",
        _ => " and one cut short\n",
    };
    // a damaged byte may say so too
    if [recorded, answered].into_iter().any(is_full) {
        text += "one of the answers says that a table is full: the sizes of the tables may not be \
                 those of the recording\n";
    }
    if entry.map_or(false, |entry| may_be_old(entry, answered)) {
        text += "the recording may be in the old form, in which operation 7 accepts and 8 \
                 disputes: `beacon convert` turns it into the new one\n";
    }
    text
}

/// Whether the answer is that to a reply of the old form: an accept is a dispute with no reason now,
/// and a dispute is malformed.
fn may_be_old(entry: Entry<'_>, answered: Recorded) -> bool {
    match Refusal::from_number(answered.number.into()) {
        Some(Refusal::DisputeReasonRequired) => true,
        Some(Refusal::MalformedRecord) => entry.record[2] == 8,
        _ => false,
    }
}

/// An answer by its number, name, word and status, and what it means.
fn in_words(said: Recorded) -> String {
    match Refusal::from_number(said.number.into()) {
        Some(refusal) => format!("{said}, status {} ({})", refusal.status(), refusal.reason()),
        None if said.number == 0 => format!("{said}, status {}", status(0)),
        None => said.to_string(),
    }
}

/// Whether the answer depends on how large a table is.
fn is_full(said: Recorded) -> bool {
    matches!(
        Refusal::from_number(said.number.into()),
        Some(
            Refusal::WalletTableFull
                | Refusal::EscrowTableFull
                | Refusal::ReceiptTableFull
                | Refusal::JournalTableFull
        )
    )
}
