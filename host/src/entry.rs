//! An entry of a recording: a record, and the answer that it got.

use std::fmt;

use crate::answer::Answer;
use crate::record::{Record, RECORD_BYTES};

/// The length of a recording's entry: a record, a byte of answer, and eight of answer word.
pub const ENTRY_BYTES: usize = RECORD_BYTES + 9;

/// An entry of a recording.
#[derive(Clone, Copy, Debug, PartialEq, Eq, Hash)]
pub struct Entry<'a> {
    /// The record that was submitted; it need not be a well-formed one.
    pub record: &'a Record,
    /// The answer that the recording says it got.
    pub recorded: Recorded,
}

/// The whole entries of a recording, over bytes that anybody keeps.
///
/// ```
/// use milebeacon::Entries;
///
/// let mapped = [7; 2 * 117 + 5];
/// let mut entries = Entries::new(&mapped);
/// assert_eq!((entries.len(), entries.cut().len()), (2, 5));
///
/// // any byte may stand where an answer's number does
/// let entry = entries.next().unwrap();
/// assert_eq!(entry.recorded.number, 7);
/// assert_eq!(entry.recorded.word, 0x0707_0707_0707_0707);
/// assert_eq!(entry.recorded.answer(), None);
/// ```
#[derive(Clone, Debug)]
pub struct Entries<'a> {
    chunks: std::slice::ChunksExact<'a, u8>,
}

impl<'a> Entries<'a> {
    /// The whole entries of these bytes.
    pub fn new(bytes: &'a [u8]) -> Entries<'a> {
        Entries {
            chunks: bytes.chunks_exact(ENTRY_BYTES),
        }
    }

    /// The bytes of an entry that is cut short at the end; none if every entry is whole.
    pub fn cut(&self) -> &'a [u8] {
        self.chunks.remainder()
    }
}

/// The entry in these bytes, which are [`ENTRY_BYTES`].
fn entry(bytes: &[u8]) -> Entry<'_> {
    let (record, answer) = bytes.split_at(RECORD_BYTES);
    let (number, word) = answer.split_at(1);
    let word = word.try_into().expect("eight bytes of word");
    Entry {
        record: record.try_into().expect("the bytes of a record"),
        recorded: Recorded {
            number: number[0],
            word: u64::from_le_bytes(word),
        },
    }
}

/// The bytes of an entry.
pub(crate) fn entry_bytes(record: &Record, answer: Answer) -> [u8; ENTRY_BYTES] {
    let recorded = Recorded::from(answer);
    let mut bytes = [0; ENTRY_BYTES];
    let (front, back) = bytes.split_at_mut(RECORD_BYTES);
    front.copy_from_slice(record);
    back[0] = recorded.number;
    back[1..].copy_from_slice(&recorded.word.to_le_bytes());
    bytes
}

impl<'a> Iterator for Entries<'a> {
    type Item = Entry<'a>;

    fn next(&mut self) -> Option<Entry<'a>> {
        self.chunks.next().map(entry)
    }

    fn size_hint(&self) -> (usize, Option<usize>) {
        self.chunks.size_hint()
    }

    fn nth(&mut self, before: usize) -> Option<Entry<'a>> {
        self.chunks.nth(before).map(entry)
    }
}

impl ExactSizeIterator for Entries<'_> {}

/// An answer as a recording has it: a byte and a word, which need not be an answer of the rules.
///
/// ```
/// use milebeacon::{Answer, Recorded, Refusal};
///
/// let recorded = Recorded::from(Answer::Refused(Refusal::NonceSeen));
/// assert_eq!(recorded, Recorded { number: 11, word: 0 });
/// assert_eq!(recorded.answer(), Some(Answer::Refused(Refusal::NonceSeen)));
/// assert_eq!(recorded.to_string(), "11 nonce_seen, word 0");
///
/// let unknown = Recorded { number: 200, word: 3 };
/// assert_eq!(unknown.answer(), None);
/// assert_eq!(unknown.to_string(), "200 (no answer's number), word 3");
/// ```
#[derive(Clone, Copy, Debug, PartialEq, Eq, Hash)]
pub struct Recorded {
    /// The answer's number, of which the rules know those below [`ANSWERS`](crate::ANSWERS).
    pub number: u8,
    /// The answer word.
    pub word: u64,
}

impl Recorded {
    /// The answer that it is; none for a number that no answer has, or a refusal with a word other
    /// than 0.
    pub fn answer(self) -> Option<Answer> {
        Answer::from_parts(self.number.into(), self.word)
    }
}

impl From<Answer> for Recorded {
    fn from(answer: Answer) -> Recorded {
        let number = u8::try_from(answer.number()).expect("answers have numbers of one byte");
        Recorded {
            number,
            word: answer.word(),
        }
    }
}

impl fmt::Display for Recorded {
    fn fmt(&self, f: &mut fmt::Formatter<'_>) -> fmt::Result {
        // a refusal's name, whatever word stands beside it
        let name = Answer::from_parts(self.number.into(), 0).map(Answer::name);
        let name = name.unwrap_or("(no answer's number)");
        write!(f, "{} {name}, word {}", self.number, self.word)
    }
}
