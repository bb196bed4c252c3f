//! The core as a shared object that is loaded at run time, so that two of them can be called in one
//! run, and the only `unsafe` code of this program.
//!
//! The entry point has the shape that `milebeacon::ffi` declares for the archive, and the search the
//! one that the core's module gives it.

#![allow(unsafe_code)]

use libloading::Library;
use milebeacon::ffi::Answer;
use milebeacon::{JournalRow, Tables};

/// The entry point that came when accepts and disputes became one operation.
const CONVERT: &[u8] = b"milebeacon_convert\0";

/// `milebeacon_submit`: the five tables and the record, each as its pointer and its number of
/// elements.
type Submit = unsafe extern "C" fn(
    header: *mut u64,
    header_len: usize,
    wallets: *mut u64,
    wallets_len: usize,
    escrows: *mut u64,
    escrows_len: usize,
    receipts: *mut u64,
    receipts_len: usize,
    journal: *mut u64,
    journal_len: usize,
    record: *const u8,
    record_len: usize,
) -> Answer;

/// `envelope_seen`, which `tools/native-archive` adds: the slice of all written journal rows, how
/// many there are, and what is looked for.
type Seen = unsafe extern "C" fn(journal: &Lent, rows: usize, signer: u64, nonce: u64) -> bool;

/// A slice as the core's own functions hand it on.
#[repr(C)]
struct Lent {
    words: *const u64,
    count: usize,
}

/// An archive of the core, linked as a shared object and loaded.
pub struct Core {
    submit: Submit,
    seen: Option<Seen>,
    knows_replies: bool,
    /// The code stays loaded for as long as the entry point can be called.
    _library: Library,
}

impl Core {
    /// Loads the shared object in this file.
    pub fn load(path: &str) -> Result<Core, String> {
        // SAFETY: the object is an archive of the core, linked by `tools/host-compare`: loading it
        // runs nothing but the C start-up code, its entry point has the shape of `Submit`, and its
        // search that of `Seen`, where there is one.
        let loaded = unsafe {
            Library::new(path).and_then(|library| {
                let submit = *library.get::<Submit>(b"milebeacon_submit\0")?;
                let seen = library.get::<Seen>(b"envelope_seen\0").ok().map(|it| *it);
                let knows_replies = library.get::<*const ()>(CONVERT).is_ok();
                Ok((submit, seen, knows_replies, library))
            })
        };
        let (submit, seen, knows_replies, library) =
            loaded.map_err(|error| format!("cannot load {path}: {error}"))?;
        Ok(Core {
            submit,
            seen,
            knows_replies,
            _library: library,
        })
    }

    /// Whether accepts and disputes are one operation. An archive of before takes them as two.
    pub fn knows_replies(&self) -> bool {
        self.knows_replies
    }

    /// Whether the search can be called by itself.
    pub fn searches(&self) -> bool {
        self.seen.is_some()
    }

    /// Whether one of the rows of a journal without a free row has signer and nonce.
    ///
    /// # Panics
    ///
    /// If the search cannot be called by itself.
    pub fn seen(&self, journal: &[u64], signer: u64, nonce: u64) -> bool {
        let seen = self.seen.expect("the search can be called by itself");
        let lent = Lent {
            words: journal.as_ptr(),
            count: journal.len(),
        };
        // SAFETY: pointer and count are those of a live slice, of which the search reads as many
        // whole rows as it is told, and writes nothing. The library is loaded as long as `self`
        // lives.
        unsafe { seen(&lent, journal.len() / JournalRow::WORDS, signer, nonce) }
    }

    /// Settles the record on the lent tables, or refuses it and changes nothing.
    pub fn submit(&self, lent: Tables<&mut [u64]>, record: &[u8]) -> Answer {
        // SAFETY: each pointer and count are those of a live slice. The five tables are borrowed
        // mutably, so none overlaps another or the record; the archive reads and writes within them
        // only, and keeps none of them. The library is loaded as long as `self` lives.
        unsafe {
            (self.submit)(
                lent.header.as_mut_ptr(),
                lent.header.len(),
                lent.wallets.as_mut_ptr(),
                lent.wallets.len(),
                lent.escrows.as_mut_ptr(),
                lent.escrows.len(),
                lent.receipts.as_mut_ptr(),
                lent.receipts.len(),
                lent.journal.as_mut_ptr(),
                lent.journal.len(),
                record.as_ptr(),
                record.len(),
            )
        }
    }
}
