//! Who submits, when, and until when the record may settle.

/// What every operation but a sweep carries: the clock, the signer with a nonce, and the window in
/// which the record may settle.
///
/// ```
/// use milebeacon::Envelope;
///
/// let envelope = Envelope::new(1_000_000, 7, 1);
/// assert_eq!((envelope.issued, envelope.expires), (1_000_000, 1_060_000));
/// assert!(envelope.signed && !envelope.admin);
///
/// let by_admin = Envelope::new(1_000_000, 1, 1).window(999_000, 1_200_000).by_admin();
/// assert_eq!(by_admin.expires, 1_200_000);
/// assert!(by_admin.admin);
/// ```
#[derive(Clone, Copy, Debug, PartialEq, Eq, Hash)]
pub struct Envelope {
    /// The host's clock, in milliseconds.
    pub now: u64,
    /// The party that signed the record; not 0.
    pub signer: u64,
    /// A number that the signer uses for one settled record only.
    pub nonce: u64,
    /// When the signer issued the record.
    pub issued: u64,
    /// The last moment at which the record may settle.
    pub expires: u64,
    /// Whether the host holds the signer's valid signature. The core checks no signatures.
    pub signed: bool,
    /// Whether the host knows the signer as an admin. Operations that do not ask leave it out of
    /// their records.
    pub admin: bool,
}

impl Envelope {
    /// The window of [`Envelope::new`]: one minute.
    pub const USUAL_WINDOW_MS: u64 = 60_000;

    /// A signed envelope, issued now and valid for a minute.
    pub fn new(now: u64, signer: u64, nonce: u64) -> Envelope {
        Envelope {
            now,
            signer,
            nonce,
            issued: now,
            expires: now.saturating_add(Envelope::USUAL_WINDOW_MS),
            signed: true,
            admin: false,
        }
    }

    /// The same with another window.
    #[must_use]
    pub fn window(self, issued: u64, expires: u64) -> Envelope {
        Envelope {
            issued,
            expires,
            ..self
        }
    }

    /// The same from a signer whom the host knows as an admin.
    #[must_use]
    pub fn by_admin(self) -> Envelope {
        Envelope {
            admin: true,
            ..self
        }
    }

    /// The same without a valid signature. The core refuses it.
    #[must_use]
    pub fn unsigned(self) -> Envelope {
        Envelope {
            signed: false,
            ..self
        }
    }
}
