//! Reading and writing records of 108 bytes.

use crate::answer::Refusal;
use crate::ffi;
use crate::submission::Submission;

/// The length of a record.
pub const RECORD_BYTES: usize = 108;

/// The bytes of a record.
pub type Record = [u8; RECORD_BYTES];

impl Submission {
    /// The fields of a record.
    ///
    /// # Errors
    ///
    /// [`Refusal::MalformedRecord`] for bytes that are no well-formed record.
    ///
    /// ```
    /// use milebeacon::{Refusal, Submission};
    ///
    /// let mut record = Submission::sweep(5_000, 10).to_record()?;
    /// assert_eq!(Submission::read(&record)?, Submission::sweep(5_000, 10));
    ///
    /// record[3] = 1; // nobody signs a sweep
    /// assert_eq!(Submission::read(&record), Err(Refusal::MalformedRecord));
    /// assert_eq!(Submission::read(&record[..50]), Err(Refusal::MalformedRecord));
    /// # Ok::<(), Refusal>(())
    /// ```
    pub fn read(record: &[u8]) -> Result<Submission, Refusal> {
        let read = ffi::read(record);
        accepted(read.number).map(|()| read.submission)
    }

    /// Writes the record into `out`.
    ///
    /// # Errors
    ///
    /// [`Refusal::MalformedRecord`] if the fields do not have the form of their operation or `out`
    /// is not [`RECORD_BYTES`] long. Then `out` is as it was.
    pub fn write(&self, out: &mut [u8]) -> Result<(), Refusal> {
        accepted(ffi::write(*self, out))
    }

    /// The record.
    ///
    /// # Errors
    ///
    /// [`Refusal::MalformedRecord`] if the fields do not have the form of their operation.
    ///
    /// ```
    /// use milebeacon::{Envelope, Refusal, Submission};
    ///
    /// let nobody = Submission::transfer(Envelope::new(1_000, 0, 1), 8, 20);
    /// assert_eq!(nobody.to_record(), Err(Refusal::MalformedRecord));
    /// ```
    pub fn to_record(&self) -> Result<Record, Refusal> {
        let mut record = [0; RECORD_BYTES];
        self.write(&mut record)?;
        Ok(record)
    }
}

impl TryFrom<&[u8]> for Submission {
    type Error = Refusal;

    fn try_from(record: &[u8]) -> Result<Submission, Refusal> {
        Submission::read(record)
    }
}

/// Reader and writer answer 0 or 3.
fn accepted(number: u64) -> Result<(), Refusal> {
    if number == 0 {
        Ok(())
    } else {
        Err(Refusal::MalformedRecord)
    }
}
