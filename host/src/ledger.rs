//! A ledger: five tables, owned or borrowed, and the core's calls over them.

use crate::answer::{Answer, Refusal};
use crate::ffi;
use crate::lookup;
use crate::numbers::{EscrowNumber, ReceiptNumber};
use crate::record::RECORD_BYTES;
use crate::rows::{EscrowRow, JournalRow, ReceiptRow, WalletRow};
use crate::submission::Submission;
use crate::tables::{Sizes, Tables};
use crate::wallet::WalletState;

/// A ledger over five tables. `Ledger` owns them; `Ledger<&mut [u64]>` borrows the caller's.
///
/// ```
/// use milebeacon::{Answer, Envelope, Ledger, Refusal, Sizes, Submission};
///
/// let mut ledger = Ledger::new(Sizes::PROGRAM)?;
/// let now = 1_700_000_000_000;
///
/// let grant = Submission::grant(Envelope::new(now, 1, 1).by_admin(), 7, 50_000_000);
/// assert_eq!(ledger.settle(&grant), Answer::Settled(0));
///
/// let open = Submission::open(Envelope::new(now, 7, 1), 8, 20_000_000, now + 3_600_000);
/// assert_eq!(ledger.settle(&open), Answer::Settled(1));
/// assert_eq!(ledger.settle(&open), Answer::Refused(Refusal::NonceSeen));
///
/// let sender = ledger.wallet(7).live().expect("it was granted credits");
/// assert_eq!((sender.balance(), sender.locked()), (30_000_000, 20_000_000));
/// # Ok::<(), Refusal>(())
/// ```
///
/// Over borrowed tables, as a host has them that keeps its tables in mapped memory:
///
/// ```
/// use milebeacon::{Ledger, Refusal, Tables};
///
/// let mut header = [0; 8];
/// let (mut wallets, mut escrows) = ([0; 6 * 4], [0; 8 * 4]);
/// let (mut receipts, mut journal) = ([0; 14 * 4], [0; 8 * 16]);
/// let mut ledger = Ledger::over(Tables {
///     header: &mut header[..],
///     wallets: &mut wallets[..],
///     escrows: &mut escrows[..],
///     receipts: &mut receipts[..],
///     journal: &mut journal[..],
/// });
/// ledger.start_afresh()?;
/// assert!(ledger.is_sound());
/// assert_eq!(header, [1, 0, 0, 0, 0, 0, 0, 0]);
/// # Ok::<(), Refusal>(())
/// ```
#[derive(Clone, Copy, Debug, PartialEq, Eq, Hash)]
pub struct Ledger<T = Vec<u64>> {
    tables: Tables<T>,
}

impl Ledger {
    /// A ledger started afresh, with tables of its own.
    ///
    /// # Errors
    ///
    /// [`Refusal::BadTable`] for sizes that the core does not take: 0 rows, or more than those of
    /// [`Sizes::LARGEST`].
    pub fn new(sizes: Sizes) -> Result<Ledger, Refusal> {
        let mut ledger = Ledger::over(Tables::zeros(sizes));
        ledger.start_afresh()?;
        Ok(ledger)
    }
}

impl<T> Ledger<T> {
    /// The ledger in these tables, as it stands.
    pub fn over(tables: Tables<T>) -> Ledger<T> {
        Ledger { tables }
    }

    /// Gives the tables back.
    pub fn into_tables(self) -> Tables<T> {
        self.tables
    }
}

impl<T: AsRef<[u64]> + AsMut<[u64]>> Ledger<T> {
    /// The tables, to be lent to the core.
    pub(crate) fn lend(&mut self) -> Tables<&mut [u64]> {
        self.tables.as_mut()
    }

    /// Starts the ledger afresh: nothing written, clock and granted total 0. Only the header
    /// changes.
    ///
    /// # Errors
    ///
    /// [`Refusal::BadTable`] if a table has a wrong length. Then nothing has changed.
    pub fn start_afresh(&mut self) -> Result<(), Refusal> {
        match ffi::fresh(self.lend()) {
            0 => Ok(()),
            _ => Err(Refusal::BadTable),
        }
    }

    /// Submits a record: settles it, or refuses it and changes nothing.
    ///
    /// Any bytes may be submitted; those that are no record are refused.
    pub fn submit(&mut self, record: &[u8]) -> Answer {
        Answer::from_core(ffi::submit(self.lend(), record))
    }

    /// Writes the submission's record and submits it.
    pub fn settle(&mut self, submission: &Submission) -> Answer {
        // Fields without a record are refused like one that is malformed.
        let record = submission.to_record().unwrap_or([0; RECORD_BYTES]);
        self.submit(&record)
    }

    /// Whether the tables have right lengths and hold a sound ledger.
    ///
    /// A ledger that was started afresh and changed by submissions only is always sound. Ask this
    /// of tables that come from elsewhere, such as a file.
    pub fn is_sound(&mut self) -> bool {
        // The core refuses a malformed record as such only after it has found the ledger sound.
        self.submit(&[]) == Answer::Refused(Refusal::MalformedRecord)
    }
}

impl<T: AsRef<[u64]>> Ledger<T> {
    /// The tables, to be read.
    pub fn tables(&self) -> Tables<&[u64]> {
        self.tables.as_ref()
    }

    /// The wallet of a party: missing, live or closed.
    ///
    /// ```
    /// # use milebeacon::{Ledger, Sizes};
    /// # let ledger = Ledger::new(Sizes::PROGRAM)?;
    /// let has_left = ledger.wallet(7).is_closed();
    /// let balance = ledger.wallet(7).live().map_or(0, |row| row.balance());
    /// # assert_eq!((has_left, balance), (false, 0));
    /// # Ok::<(), milebeacon::Refusal>(())
    /// ```
    pub fn wallet(&self, id: u64) -> WalletState<WalletRow<'_>> {
        let Tables {
            header, wallets, ..
        } = self.tables();
        lookup::wallet_row(header, wallets, id)
    }

    /// The escrow with this number.
    pub fn escrow(&self, number: EscrowNumber) -> Option<EscrowRow<'_>> {
        let Tables {
            header, escrows, ..
        } = self.tables();
        lookup::escrow_row(header, escrows, number)
    }

    /// The receipt with this number.
    pub fn receipt(&self, number: ReceiptNumber) -> Option<ReceiptRow<'_>> {
        let Tables {
            header, receipts, ..
        } = self.tables();
        lookup::receipt_row(header, receipts, number)
    }

    /// The wallets written, closed ones among them, in row order.
    pub fn wallets(&self) -> impl Iterator<Item = WalletRow<'_>> + '_ {
        let rows = self.tables().wallets.chunks_exact(WalletRow::WORDS);
        rows.take(self.count(4)).filter_map(WalletRow::new)
    }

    /// The escrows written, in row order: the first is number 1.
    pub fn escrows(&self) -> impl Iterator<Item = EscrowRow<'_>> + '_ {
        let rows = self.tables().escrows.chunks_exact(EscrowRow::WORDS);
        rows.take(self.count(5)).filter_map(EscrowRow::new)
    }

    /// The receipts written, in row order: the first is number 1.
    pub fn receipts(&self) -> impl Iterator<Item = ReceiptRow<'_>> + '_ {
        let rows = self.tables().receipts.chunks_exact(ReceiptRow::WORDS);
        rows.take(self.count(6)).filter_map(ReceiptRow::new)
    }

    /// The journal: the settled submissions, sweeps apart, in the order in which they settled.
    pub fn journal(&self) -> impl Iterator<Item = JournalRow<'_>> + '_ {
        let rows = self.tables().journal.chunks_exact(JournalRow::WORDS);
        rows.take(self.count(7)).filter_map(JournalRow::new)
    }

    /// Whether the system is frozen.
    pub fn is_frozen(&self) -> bool {
        self.header_word(1) == 1
    }

    /// The clock of the last settled submission.
    pub fn last_clock(&self) -> u64 {
        self.header_word(2)
    }

    /// The credits granted in all.
    pub fn granted_total(&self) -> u64 {
        self.header_word(3)
    }

    /// The balances of all wallets together.
    pub fn balance_total(&self) -> u128 {
        self.wallets()
            .map(|wallet| u128::from(wallet.balance()))
            .sum()
    }

    /// The credits locked in open escrows. With the balances they make up the granted total.
    pub fn locked_total(&self) -> u128 {
        self.wallets()
            .map(|wallet| u128::from(wallet.locked()))
            .sum()
    }

    fn header_word(&self, place: usize) -> u64 {
        self.tables().header.get(place).copied().unwrap_or(0)
    }

    fn count(&self, place: usize) -> usize {
        usize::try_from(self.header_word(place)).unwrap_or(usize::MAX)
    }
}
