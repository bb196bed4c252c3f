//! Request 1/13 of the change requests, "Replay of a ship's recording".

use crate::form::Form;
use crate::record::RECORD_BYTES;
use crate::tables::{fresh, Tables};

/// "each entry is a submission record of 108 bytes, then one byte of answer
/// and eight bytes of answer word, little-endian".
pub const ENTRY_BYTES: usize = RECORD_BYTES + 1 + 8;

/// What a replay reports.
#[derive(Clone, Copy, Debug, PartialEq, Eq)]
pub enum Found {
    /// "Tables of a wrong length are answer 1."
    WrongLength,
    /// "that all agree and how many there were".
    AllAgree(u64),
    /// "An entry cut short at the end is reported as such": how many whole
    /// ones, which all agree, there were before it.
    CutShort(u64),
    /// "stops at the first entry that disagrees and reports it with both
    /// answers": the entry, counted from 1, and the numbers and words.
    Disagrees {
        entry: u64,
        recorded: (u64, u64),
        answered: (u64, u64),
    },
}

/// One entry: the record, and what was answered to it.
pub fn entry(record: &[u8; RECORD_BYTES], number: u8, word: u64) -> [u8; ENTRY_BYTES] {
    let mut bytes = [0; ENTRY_BYTES];
    bytes[..RECORD_BYTES].copy_from_slice(record);
    bytes[RECORD_BYTES] = number;
    bytes[RECORD_BYTES + 1..].copy_from_slice(&word.to_le_bytes());
    bytes
}

/// "one byte of answer and eight bytes of answer word, little-endian".
fn recorded_answer(bytes: &[u8]) -> (u64, u64) {
    let mut word = [0; 8];
    word.copy_from_slice(&bytes[1..]);
    (u64::from(bytes[0]), u64::from_le_bytes(word))
}

/// "a replay on a fresh ledger that compares each answer and word, stops at
/// the first entry that disagrees and reports it with both answers, or that
/// all agree and how many there were. An entry cut short at the end is
/// reported as such and is not replayed. ... tables replayed on are left as
/// after the last entry replayed."
pub fn replay(tables: &mut Tables<'_>, recording: &[u8]) -> Found {
    replay_in(Form::New, tables, recording)
}

/// `replay` of a recording in either form.
pub fn replay_in(form: Form, tables: &mut Tables<'_>, recording: &[u8]) -> Found {
    if fresh(tables) != 0 {
        return Found::WrongLength;
    }
    let entries = recording.chunks_exact(ENTRY_BYTES);
    let cut_short = !entries.remainder().is_empty();
    let mut replayed = 0;
    for bytes in entries {
        let (record, answer) = bytes.split_at(RECORD_BYTES);
        let recorded = recorded_answer(answer);
        let answered = crate::submit_in(form, tables, record);
        replayed += 1;
        if answered != recorded {
            return Found::Disagrees {
                entry: replayed,
                recorded,
                answered,
            };
        }
    }
    if cut_short {
        Found::CutShort(replayed)
    } else {
        Found::AllAgree(replayed)
    }
}
