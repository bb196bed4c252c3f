//! The rows of section "Lent tables", as plain structs.

/// A row of one of the four row tables.
pub trait Row: Sized {
    /// The words of one row.
    const WORDS: usize;
    /// "At most ... rows."
    const MOST_ROWS: usize;
    /// None if a flag isn't 0 or 1, a wallet's frozen word not 0 to 2, or a
    /// state not 1 to 4: such a row is in no sound ledger. `words` holds exactly
    /// `WORDS` words.
    fn from_words(words: &[u64]) -> Option<Self>;
    /// Back into exactly `WORDS` words.
    fn put_words(&self, words: &mut [u64]);
}

/// "flags 0 or 1".
pub fn flag(word: u64) -> Option<bool> {
    match word {
        0 => Some(false),
        1 => Some(true),
        _ => None,
    }
}

/// The place of a wallet's frozen word in its row.
pub const FROZEN_WORD: usize = 3;

/// A wallet's frozen word: "frozen (0/1)", and of request 6/13, for one that is
/// closed: "The frozen word becomes 2, and a sound ledger allows it".
#[derive(Clone, Copy, PartialEq, Eq)]
pub enum Frozen {
    No = 0,
    Yes = 1,
    Closed = 2,
}

impl Frozen {
    fn numbered(word: u64) -> Option<Frozen> {
        match word {
            0 => Some(Frozen::No),
            1 => Some(Frozen::Yes),
            2 => Some(Frozen::Closed),
            _ => None,
        }
    }
}

/// "Wallet, 6 words: id, balance, locked, frozen (0/1), per-transaction cap,
/// daily cap. At most 1,024 rows."
pub struct Wallet {
    pub id: u64,
    pub balance: u64,
    pub locked: u64,
    pub frozen: Frozen,
    pub per_tx_cap: u64,
    pub daily_cap: u64,
}

impl Row for Wallet {
    const WORDS: usize = 6;
    const MOST_ROWS: usize = 1_024;

    fn from_words(words: &[u64]) -> Option<Wallet> {
        Some(Wallet {
            id: words[0],
            balance: words[1],
            locked: words[2],
            frozen: Frozen::numbered(words[FROZEN_WORD])?,
            per_tx_cap: words[4],
            daily_cap: words[5],
        })
    }

    fn put_words(&self, words: &mut [u64]) {
        words.copy_from_slice(&[
            self.id,
            self.balance,
            self.locked,
            self.frozen as u64,
            self.per_tx_cap,
            self.daily_cap,
        ]);
    }
}

/// "state (1 open, 2 released, 3 refunded, 4 expired)".
#[derive(Clone, Copy, PartialEq, Eq)]
pub enum EscrowState {
    Open = 1,
    Released = 2,
    Refunded = 3,
    Expired = 4,
}

impl EscrowState {
    fn numbered(word: u64) -> Option<EscrowState> {
        match word {
            1 => Some(EscrowState::Open),
            2 => Some(EscrowState::Released),
            3 => Some(EscrowState::Refunded),
            4 => Some(EscrowState::Expired),
            _ => None,
        }
    }
}

/// "Escrow, 8 words: from, to, amount, deadline, state ..., opened at, closed
/// at, closing signer. ... Its number is its row. At most 4,096 rows."
pub struct Escrow {
    pub from: u64,
    pub to: u64,
    pub amount: u64,
    pub deadline: u64,
    pub state: EscrowState,
    pub opened_at: u64,
    pub closed_at: u64,
    pub closing_signer: u64,
}

impl Escrow {
    /// An escrow that can still be released: "open and not stale", where
    /// "'Stale' means deadline < now."
    pub fn open_and_not_stale(&self, now: u64) -> bool {
        self.state == EscrowState::Open && self.deadline >= now
    }

    /// "open stale escrows".
    pub fn open_and_stale(&self, now: u64) -> bool {
        self.state == EscrowState::Open && self.deadline < now
    }
}

impl Row for Escrow {
    const WORDS: usize = 8;
    const MOST_ROWS: usize = 4_096;

    fn from_words(words: &[u64]) -> Option<Escrow> {
        Some(Escrow {
            from: words[0],
            to: words[1],
            amount: words[2],
            deadline: words[3],
            state: EscrowState::numbered(words[4])?,
            opened_at: words[5],
            closed_at: words[6],
            closing_signer: words[7],
        })
    }

    fn put_words(&self, words: &mut [u64]) {
        words.copy_from_slice(&[
            self.from,
            self.to,
            self.amount,
            self.deadline,
            self.state as u64,
            self.opened_at,
            self.closed_at,
            self.closing_signer,
        ]);
    }
}

/// "state (1 pending, 2 accepted, 3 disputed, 4 expired)".
#[derive(Clone, Copy, PartialEq, Eq)]
pub enum ReceiptState {
    Pending = 1,
    Accepted = 2,
    Disputed = 3,
    Expired = 4,
}

impl ReceiptState {
    fn numbered(word: u64) -> Option<ReceiptState> {
        match word {
            1 => Some(ReceiptState::Pending),
            2 => Some(ReceiptState::Accepted),
            3 => Some(ReceiptState::Disputed),
            4 => Some(ReceiptState::Expired),
            _ => None,
        }
    }
}

/// "Receipt, 14 words: provider, requester, link, acceptance deadline,
/// auto-accept (0/1), state ..., claimed at, closed at, closing signer,
/// release code, four hash words. ... At most 4,096 rows."
pub struct Receipt {
    pub provider: u64,
    pub requester: u64,
    pub link: u64,
    pub deadline: u64,
    pub auto_accept: bool,
    pub state: ReceiptState,
    pub claimed_at: u64,
    pub closed_at: u64,
    pub closing_signer: u64,
    pub release_code: u64,
    pub hash: [u64; 4],
}

impl Row for Receipt {
    const WORDS: usize = 14;
    const MOST_ROWS: usize = 4_096;

    fn from_words(words: &[u64]) -> Option<Receipt> {
        Some(Receipt {
            provider: words[0],
            requester: words[1],
            link: words[2],
            deadline: words[3],
            auto_accept: flag(words[4])?,
            state: ReceiptState::numbered(words[5])?,
            claimed_at: words[6],
            closed_at: words[7],
            closing_signer: words[8],
            release_code: words[9],
            hash: [words[10], words[11], words[12], words[13]],
        })
    }

    fn put_words(&self, words: &mut [u64]) {
        words[..10].copy_from_slice(&[
            self.provider,
            self.requester,
            self.link,
            self.deadline,
            u64::from(self.auto_accept),
            self.state as u64,
            self.claimed_at,
            self.closed_at,
            self.closing_signer,
            self.release_code,
        ]);
        words[10..].copy_from_slice(&self.hash);
    }
}

/// "Journal, 8 words: signer, nonce, operation, target, amount, settled at,
/// answer word, link. At most 8,192 rows." A sound journal may hold any
/// operation word, so it stays a number.
pub struct Entry {
    pub signer: u64,
    pub nonce: u64,
    pub operation: u64,
    pub target: u64,
    pub amount: u64,
    pub settled_at: u64,
    pub word: u64,
    pub link: u64,
}

impl Row for Entry {
    const WORDS: usize = 8;
    const MOST_ROWS: usize = 8_192;

    fn from_words(words: &[u64]) -> Option<Entry> {
        Some(Entry {
            signer: words[0],
            nonce: words[1],
            operation: words[2],
            target: words[3],
            amount: words[4],
            settled_at: words[5],
            word: words[6],
            link: words[7],
        })
    }

    fn put_words(&self, words: &mut [u64]) {
        words.copy_from_slice(&[
            self.signer,
            self.nonce,
            self.operation,
            self.target,
            self.amount,
            self.settled_at,
            self.word,
            self.link,
        ]);
    }
}
