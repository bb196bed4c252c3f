//! Replaying a recording: whether the core gives the recorded answers again.

use std::fmt;

use crate::answer::{Answer, Refusal};
use crate::entry::Recorded;
use crate::ffi;
use crate::ledger::Ledger;

/// What the replay of a recording found.
#[must_use = "a recording may disagree"]
#[derive(Clone, Copy, Debug, PartialEq, Eq, Hash)]
pub enum Replay {
    /// The core gave the recorded answer and word to every entry.
    AllAgree {
        /// How many entries there are.
        entries: u64,
    },
    /// The same of every whole entry, and the last is cut short. It was not replayed.
    CutShort {
        /// How many whole entries there are.
        agreed: u64,
    },
    /// The core answered an entry otherwise. Those before it agree, and those after it, whole or
    /// cut short, were not looked at.
    Disagrees {
        /// The entry, counted from 1. It was replayed.
        entry: u64,
        /// What the recording says.
        recorded: Recorded,
        /// What the core says.
        answered: Answer,
    },
}

impl Replay {
    /// How many entries were replayed, one that disagrees among them.
    pub fn replayed(&self) -> u64 {
        match *self {
            Replay::AllAgree { entries } => entries,
            Replay::CutShort { agreed } => agreed,
            Replay::Disagrees { entry, .. } => entry,
        }
    }

    /// Whether every entry is whole and has the core's own answer.
    pub fn all_agree(&self) -> bool {
        matches!(self, Replay::AllAgree { .. })
    }
}

impl fmt::Display for Replay {
    fn fmt(&self, f: &mut fmt::Formatter<'_>) -> fmt::Result {
        match self {
            Replay::AllAgree { entries } => write!(f, "all agree: {}", Counted(*entries, "")),
            Replay::CutShort { agreed } => {
                write!(f, "cut short after {}", Counted(*agreed, "agreeing "))
            }
            Replay::Disagrees {
                entry,
                recorded,
                answered,
            } => write!(
                f,
                "entry {entry} disagrees: recorded {recorded}; answered {}",
                Recorded::from(*answered)
            ),
        }
    }
}

/// A number of entries, in words, with a word before them.
struct Counted(u64, &'static str);

impl fmt::Display for Counted {
    fn fmt(&self, f: &mut fmt::Formatter<'_>) -> fmt::Result {
        match self {
            Counted(1, which) => write!(f, "1 {which}entry"),
            Counted(number, which) => write!(f, "{number} {which}entries"),
        }
    }
}

impl<T: AsRef<[u64]> + AsMut<[u64]>> Ledger<T> {
    /// Starts the ledger afresh and submits the recording's entries one after the other, up to the
    /// first whose answer or word is another than the recorded one.
    ///
    /// The tables are left as after the last entry replayed, which is the one that disagrees if one
    /// does. A recording that was made on a fresh ledger of the same [sizes](crate::Sizes) agrees;
    /// the sizes are not part of it. An empty one agrees, too.
    ///
    /// # Errors
    ///
    /// [`Refusal::BadTable`] if a table has a wrong length. Then nothing has changed.
    ///
    /// ```
    /// use milebeacon::{Answer, Envelope, Ledger, Recorded, Recording, Replay, Sizes, Submission};
    ///
    /// let admin = Envelope::new(1_000, 1, 1).by_admin();
    /// let grant = Submission::grant(admin, 7, 50_000_000).to_record()?;
    /// let mut ledger = Ledger::new(Sizes::PROGRAM)?;
    /// let mut recording = Recording::new();
    /// recording.push(&grant, ledger.submit(&grant))?;
    /// recording.push(&grant, ledger.submit(&grant))?; // refused: the nonce was seen
    ///
    /// let mut other = Ledger::new(Sizes::PROGRAM)?;
    /// let found = other.replay(recording.as_bytes())?;
    /// assert_eq!(found, Replay::AllAgree { entries: 2 });
    /// assert_eq!(found.to_string(), "all agree: 2 entries");
    /// assert_eq!(other, ledger);
    ///
    /// // a recording of which somebody says that the grant was made twice
    /// let mut bytes = recording.into_bytes();
    /// bytes[117 + 108] = 0;
    /// let found = other.replay(&bytes)?;
    /// assert_eq!(
    ///     found.to_string(),
    ///     "entry 2 disagrees: recorded 0 settled, word 0; answered 11 nonce_seen, word 0"
    /// );
    ///
    /// // cut amid its last entry
    /// let found = other.replay(&bytes[..200])?;
    /// assert_eq!(found, Replay::CutShort { agreed: 1 });
    /// assert_eq!(found.to_string(), "cut short after 1 agreeing entry");
    /// # Ok::<(), Box<dyn std::error::Error>>(())
    /// ```
    pub fn replay(&mut self, recording: &[u8]) -> Result<Replay, Refusal> {
        let verdict = ffi::replay(self.lend(), recording);
        if verdict.number != 0 {
            return Err(Refusal::BadTable);
        }
        let replayed = verdict.replayed;
        Ok(match verdict.finding {
            ffi::ALL_AGREE => Replay::AllAgree { entries: replayed },
            ffi::CUT_SHORT => Replay::CutShort { agreed: replayed },
            finding => {
                assert_eq!(finding, ffi::DISAGREES, "the core has three findings");
                let ffi::Answer { number, word } = verdict.recorded;
                Replay::Disagrees {
                    entry: replayed,
                    recorded: Recorded {
                        number: u8::try_from(number).expect("it is a byte of the recording"),
                        word,
                    },
                    answered: Answer::from_core(verdict.answered),
                }
            }
        })
    }
}
