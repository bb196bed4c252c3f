//! A ship's recording: submission records with the answers that they got.

use std::error::Error;
use std::fmt;

use crate::answer::Answer;
use crate::entry::{entry_bytes, Entries, Entry};
use crate::ffi;
use crate::record::Record;

/// Submission records with their answers, in the order in which they were submitted.
///
/// It is a list of entries of [`ENTRY_BYTES`](crate::ENTRY_BYTES): the record, one byte with the answer's number, and
/// the answer word, little-endian. Any bytes are a recording; whether its answers are the core's own
/// is found by a [replay](crate::Ledger::replay). The last entry may be cut short, as after a write
/// that was broken off: such a piece is no entry, and is counted and iterated over nowhere.
///
/// A submission of another length than a record's is refused as malformed and changes nothing. It
/// cannot be an entry, so it is not recorded.
///
/// ```
/// use milebeacon::{Answer, Recorded, Recording, Refusal, Submission, ENTRY_BYTES};
///
/// let sweep = Submission::sweep(5_000, 10).to_record()?;
/// let mut recording = Recording::new();
/// recording.push(&sweep, Answer::Settled(2))?;
/// recording.push(&sweep, Answer::Refused(Refusal::ClockBack))?;
/// assert_eq!(recording.len(), 2);
///
/// let first = recording.entries().next().unwrap();
/// assert_eq!(first.record, &sweep);
/// assert_eq!(first.recorded, Recorded { number: 0, word: 2 });
///
/// let mut bytes = recording.into_bytes();
/// assert_eq!((bytes.len(), bytes[108], bytes[109]), (2 * ENTRY_BYTES, 0, 2));
///
/// bytes.pop();
/// let cut = Recording::from_bytes(bytes);
/// assert_eq!((cut.len(), cut.cut().len()), (1, 116));
/// # Ok::<(), Box<dyn std::error::Error>>(())
/// ```
#[derive(Clone, Debug, Default, PartialEq, Eq, Hash)]
pub struct Recording {
    bytes: Vec<u8>,
}

impl Recording {
    /// A recording with no entries.
    pub fn new() -> Recording {
        Recording::default()
    }

    /// The recording that these bytes are, such as those of a file.
    pub fn from_bytes(bytes: Vec<u8>) -> Recording {
        Recording { bytes }
    }

    /// Its bytes, a last entry that is cut short among them.
    pub fn as_bytes(&self) -> &[u8] {
        &self.bytes
    }

    /// Gives the bytes away.
    pub fn into_bytes(self) -> Vec<u8> {
        self.bytes
    }

    /// Adds an entry.
    ///
    /// # Errors
    ///
    /// [`CutShort`] if the recording ends amid an entry: what is added would be read as a part of
    /// it. Then nothing was added; [`drop_cut`](Recording::drop_cut) takes the piece away.
    pub fn push(&mut self, record: &Record, answer: Answer) -> Result<(), CutShort> {
        match self.cut().len() {
            0 => {
                self.bytes.extend_from_slice(&entry_bytes(record, answer));
                Ok(())
            }
            bytes => Err(CutShort { bytes }),
        }
    }

    /// How many whole entries there are.
    pub fn len(&self) -> usize {
        self.entries().len()
    }

    /// Whether there is no whole entry.
    pub fn is_empty(&self) -> bool {
        self.len() == 0
    }

    /// The whole entries.
    pub fn entries(&self) -> Entries<'_> {
        Entries::new(&self.bytes)
    }

    /// The bytes of an entry that is cut short at the end; none if every entry is whole.
    pub fn cut(&self) -> &[u8] {
        self.entries().cut()
    }

    /// Takes an entry that is cut short off the end, and gives its bytes.
    ///
    /// ```
    /// use milebeacon::{Answer, Recording};
    ///
    /// let mut recording = Recording::from_bytes(vec![0xA7, 0x3C, 9]);
    /// let torn = recording.push(&[0; 108], Answer::Settled(0)).unwrap_err();
    /// assert_eq!(torn.to_string(), "the recording ends amid an entry, after 3 bytes of it");
    ///
    /// assert_eq!(recording.drop_cut(), [0xA7, 0x3C, 9]);
    /// assert_eq!(recording.push(&[0; 108], Answer::Settled(0)), Ok(()));
    /// ```
    pub fn drop_cut(&mut self) -> Vec<u8> {
        let whole = self.bytes.len() - self.cut().len();
        self.bytes.split_off(whole)
    }

    /// Turns a recording of the old form into today's, in place.
    ///
    /// In the old form operation 7 was an accept, with no flag but
    /// [`SIGNED`](crate::Submission::SIGNED), and operation 8 a dispute, with
    /// [`REASON`](crate::Submission::REASON) if one was given. All else was as it is today. An accept
    /// gets [`ACCEPT`](crate::Submission::ACCEPT), and a dispute operation 7. A record that was
    /// malformed gets operation 0, lest it be a reply of today's form. Every other byte stays, those
    /// of the answers and of an entry that is cut short too.
    ///
    /// What is promised: on a fresh ledger the entries get the answers and words that they got in the
    /// old form, all other rules being today's. So a recording that agreed with the core in the old
    /// form agrees with a [replay](crate::Ledger::replay) once it is converted.
    ///
    /// It is to be done **once**. Today's replies are something else in the old form: an accept is
    /// malformed, so is a dispute with a reason, and one without is an accept. Nothing in the bytes
    /// says for sure in which form a recording is, and none is refused.
    ///
    /// ```
    /// use milebeacon::{Answer, Envelope, Ledger, ReceiptNumber, Recording, Refusal, Sizes, Submission};
    ///
    /// let envelope = Envelope::new(1_000, 7, 1);
    /// let accept = Submission::accept(envelope, ReceiptNumber(1));
    /// let dispute = Submission::dispute(envelope, ReceiptNumber(1), true);
    ///
    /// // as they were recorded, on a ledger with no receipt
    /// let (mut old_accept, mut old_dispute) = (accept.to_record()?, dispute.to_record()?);
    /// old_accept[3] = Submission::SIGNED;
    /// old_dispute[2] = 8;
    /// let mut recording = Recording::new();
    /// for record in [old_accept, old_dispute] {
    ///     recording.push(&record, Answer::Refused(Refusal::ReceiptNotFound))?;
    /// }
    ///
    /// recording.convert();
    /// let records: Vec<_> = recording.entries().map(|entry| *entry.record).collect();
    /// assert_eq!(records, [accept.to_record()?, dispute.to_record()?]);
    /// let mut ledger = Ledger::new(Sizes::PROGRAM)?;
    /// assert!(ledger.replay(recording.as_bytes())?.all_agree());
    /// # Ok::<(), Box<dyn std::error::Error>>(())
    /// ```
    pub fn convert(&mut self) {
        ffi::convert(&mut self.bytes);
    }
}

impl From<Vec<u8>> for Recording {
    fn from(bytes: Vec<u8>) -> Recording {
        Recording::from_bytes(bytes)
    }
}

impl From<Recording> for Vec<u8> {
    fn from(recording: Recording) -> Vec<u8> {
        recording.into_bytes()
    }
}

impl AsRef<[u8]> for Recording {
    fn as_ref(&self) -> &[u8] {
        self.as_bytes()
    }
}

impl<'a> IntoIterator for &'a Recording {
    type Item = Entry<'a>;
    type IntoIter = Entries<'a>;

    fn into_iter(self) -> Entries<'a> {
        self.entries()
    }
}

/// An entry cannot be added, as the recording ends amid another.
#[derive(Clone, Copy, Debug, PartialEq, Eq, Hash)]
pub struct CutShort {
    /// How many bytes of the entry there are, 1 to 116.
    pub bytes: usize,
}

impl fmt::Display for CutShort {
    fn fmt(&self, f: &mut fmt::Formatter<'_>) -> fmt::Result {
        let bytes = self.bytes;
        write!(
            f,
            "the recording ends amid an entry, after {bytes} bytes of it"
        )
    }
}

impl Error for CutShort {}
