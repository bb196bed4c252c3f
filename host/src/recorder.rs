//! Settling and writing the recording at once.

use std::error::Error;
use std::fmt;
use std::io::{self, Write};

use crate::answer::{Answer, Refusal};
use crate::entry::entry_bytes;
use crate::ledger::Ledger;
use crate::record::{Record, RECORD_BYTES};
use crate::submission::Submission;

/// A ledger that writes down every submission with its answer, before it hands the answer out.
///
/// It keeps the ledger to itself, so that nothing is settled past the recording: one that was
/// [started](Recorder::start) and then only submitted to writes a recording that a
/// [replay](Ledger::replay) on tables of the same sizes agrees with, and that leads to the same
/// tables.
///
/// Each entry is a `write_all` of [`ENTRY_BYTES`](crate::ENTRY_BYTES), which is one write or, if the
/// writer takes fewer bytes at a time, several, and then a flush. A host that wants an entry on the
/// disk before it uses the answer lends a writer whose flush waits for the disk:
///
/// ```
/// use std::fs::File;
/// use std::io::{self, Write};
///
/// struct OnDisk(File);
///
/// impl Write for OnDisk {
///     fn write(&mut self, bytes: &[u8]) -> io::Result<usize> {
///         self.0.write(bytes)
///     }
///     fn flush(&mut self) -> io::Result<()> {
///         self.0.sync_data()
///     }
/// }
/// # let path = std::env::temp_dir().join(format!("on-disk-{}", std::process::id()));
/// # use milebeacon::{Ledger, Recorder, Sizes, Submission};
/// # let file = OnDisk(File::create(&path)?);
/// # let mut recorder = Recorder::start(Ledger::new(Sizes::PROGRAM)?, file)?;
/// # recorder.settle(&Submission::sweep(5_000, 1))?.settled()?;
/// # assert_eq!(std::fs::read(&path)?.len(), 117);
/// # std::fs::remove_file(&path)?;
/// # Ok::<(), Box<dyn std::error::Error>>(())
/// ```
///
/// After a start of the machine the recording is replayed, which leaves the tables as they were, and
/// the recorder goes on from there:
///
/// ```
/// use milebeacon::{Answer, Ledger, Recorder, Replay, Sizes, Submission};
///
/// let mut log = Vec::new(); // any writer, such as a file
/// let mut recorder = Recorder::start(Ledger::new(Sizes::PROGRAM)?, &mut log)?;
/// assert_eq!(recorder.settle(&Submission::sweep(5_000, 10))?, Answer::Settled(0));
///
/// let mut ledger = Ledger::new(Sizes::PROGRAM)?;
/// assert_eq!(ledger.replay(&log)?, Replay::AllAgree { entries: 1 });
/// assert_eq!(ledger.last_clock(), 5_000);
/// let mut recorder = Recorder::resume(ledger, &mut log);
/// assert_eq!(recorder.settle(&Submission::sweep(6_000, 10))?, Answer::Settled(0));
/// assert_eq!(log.len(), 2 * 117);
/// # Ok::<(), Box<dyn std::error::Error>>(())
/// ```
#[derive(Debug)]
pub struct Recorder<W, T = Vec<u64>> {
    ledger: Ledger<T>,
    writer: W,
    stopped: bool,
}

impl<W: Write, T: AsRef<[u64]> + AsMut<[u64]>> Recorder<W, T> {
    /// Starts the ledger afresh, and a recording of it where the writer stands.
    ///
    /// # Errors
    ///
    /// [`Refusal::BadTable`] if a table has a wrong length. Then nothing has changed.
    pub fn start(mut ledger: Ledger<T>, writer: W) -> Result<Recorder<W, T>, Refusal> {
        ledger.start_afresh()?;
        Ok(Recorder::resume(ledger, writer))
    }

    /// Goes on with the recording behind whose last whole entry the writer stands. The ledger is
    /// the one that it led to, such as by a replay of it.
    pub fn resume(ledger: Ledger<T>, writer: W) -> Recorder<W, T> {
        Recorder {
            ledger,
            writer,
            stopped: false,
        }
    }

    /// Submits a record and writes its entry.
    ///
    /// Bytes of another length cannot be an entry: they are refused as malformed, change nothing,
    /// and are not recorded. The type of `record` leaves them out.
    ///
    /// # Errors
    ///
    /// [`Unrecorded::Unwritten`] if the write or the flush of the entry failed. The submission is
    /// not undone by that, and the entry may be there all the same. The recorder submits nothing
    /// from then on ([`Unrecorded::Stopped`]), as entries behind one that is missing or cut short
    /// would not agree.
    pub fn submit(&mut self, record: &Record) -> Result<Answer, Unrecorded> {
        if self.stopped {
            return Err(Unrecorded::Stopped);
        }
        let answer = self.ledger.submit(record);
        let entry = entry_bytes(record, answer);
        let written = self.writer.write_all(&entry);
        match written.and_then(|()| self.writer.flush()) {
            Ok(()) => Ok(answer),
            Err(error) => {
                self.stopped = true;
                Err(Unrecorded::Unwritten { answer, error })
            }
        }
    }

    /// Writes the submission's record, and submits and records it.
    ///
    /// # Errors
    ///
    /// As for [`submit`](Recorder::submit).
    pub fn settle(&mut self, submission: &Submission) -> Result<Answer, Unrecorded> {
        // Fields without a record are refused like one that is malformed.
        let record = submission.to_record().unwrap_or([0; RECORD_BYTES]);
        self.submit(&record)
    }
}

impl<W, T> Recorder<W, T> {
    /// The ledger, to be read.
    pub fn ledger(&self) -> &Ledger<T> {
        &self.ledger
    }

    /// Gives the ledger and the writer back. What is submitted to the ledger then is not recorded.
    pub fn into_parts(self) -> (Ledger<T>, W) {
        (self.ledger, self.writer)
    }
}

/// Why a [`Recorder`] hands out no answer.
#[derive(Debug)]
pub enum Unrecorded {
    /// The write of the entry failed, or the flush after it. The entry may be in the recording
    /// wholly, in part or not at all: the flush may have failed after all of it was written.
    ///
    /// The submission was answered all the same: if it settled, the ledger has it, and the recording
    /// may not. A [replay](Ledger::replay) of the recording says which it is, by how many entries
    /// there are and whether the last is cut short, and leaves the ledger of the recording.
    ///
    /// What is then submitted again must be the same bytes, and so the same nonce: if the entry is
    /// there and settled, they are refused ([`Refusal::NonceSeen`]). Under another nonce an escrow,
    /// say, would be opened a second time.
    Unwritten {
        /// The core's answer.
        answer: Answer,
        /// Why the write or the flush failed.
        error: io::Error,
    },
    /// The write or the flush of an earlier entry failed. Nothing was submitted.
    Stopped,
}

impl fmt::Display for Unrecorded {
    fn fmt(&self, f: &mut fmt::Formatter<'_>) -> fmt::Result {
        match self {
            Unrecorded::Unwritten { error, .. } => {
                write!(f, "the recording could not be written: {error}")
            }
            Unrecorded::Stopped => {
                f.write_str("nothing was submitted, as an earlier entry could not be recorded")
            }
        }
    }
}

impl Error for Unrecorded {
    fn source(&self) -> Option<&(dyn Error + 'static)> {
        match self {
            Unrecorded::Unwritten { error, .. } => Some(error),
            Unrecorded::Stopped => None,
        }
    }
}
