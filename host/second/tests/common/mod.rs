//! A ledger that owns its tables, and short ways to write submissions.
#![allow(dead_code)]

use second::{fresh, is_sound, submit, write, Submission, Tables};

pub const SIGNED: u8 = 1;
pub const ADMIN: u8 = 2;
pub const BIT2: u8 = 4;
pub const REASON: u8 = 8;
pub const MOST: u64 = 1_000_000_000_000_000;
pub const TIME: u64 = (1 << 48) - 1;

#[derive(Clone, Debug, PartialEq, Eq)]
pub struct World {
    pub header: Vec<u64>,
    pub wallets: Vec<u64>,
    pub escrows: Vec<u64>,
    pub receipts: Vec<u64>,
    pub journal: Vec<u64>,
}

impl World {
    /// Fresh tables with these rows; unwritten words hold anything.
    pub fn new(wallets: usize, escrows: usize, receipts: usize, journal: usize) -> World {
        let mut world = World {
            header: vec![77; 8],
            wallets: vec![u64::MAX; wallets * 6],
            escrows: vec![u64::MAX - 1; escrows * 8],
            receipts: vec![u64::MAX - 2; receipts * 14],
            journal: vec![u64::MAX - 3; journal * 8],
        };
        assert_eq!(fresh(&mut world.tables()), 0);
        world
    }

    pub fn usual() -> World {
        World::new(8, 8, 8, 32)
    }

    pub fn tables(&mut self) -> Tables<'_> {
        Tables {
            header: &mut self.header,
            wallets: &mut self.wallets,
            escrows: &mut self.escrows,
            receipts: &mut self.receipts,
            journal: &mut self.journal,
        }
    }

    pub fn sound(&mut self) -> bool {
        is_sound(&self.tables())
    }

    pub fn send(&mut self, submission: &Submission) -> (u64, u64) {
        submit(&mut self.tables(), &bytes(submission))
    }

    /// Must settle; the word.
    #[track_caller]
    pub fn settles(&mut self, submission: Submission) -> u64 {
        let (answer, word) = self.send(&submission);
        assert_eq!(answer, 0, "{:?}", submission);
        assert!(self.sound());
        word
    }

    /// Must be refused with this number, word 0, and unchanged tables.
    #[track_caller]
    pub fn refuses(&mut self, submission: Submission, number: u64) {
        let before = self.clone();
        assert_eq!(self.send(&submission), (number, 0), "{:?}", submission);
        assert!(*self == before);
    }

    pub fn wallet_row(&self, id: u64) -> Option<&[u64]> {
        let written = self.header[4] as usize;
        let mut rows = self.wallets.chunks(6).take(written);
        rows.find(|row| row[0] == id)
    }

    /// Balance and locked.
    pub fn has(&self, id: u64) -> (u64, u64) {
        let row = self.wallet_row(id).expect("a wallet");
        (row[1], row[2])
    }

    /// Sets the frozen word of a wallet, as in tables that are lent so.
    #[track_caller]
    pub fn set_frozen(&mut self, id: u64, word: u64) {
        let written = self.header[4] as usize;
        let mut rows = self.wallets.chunks_mut(6).take(written);
        rows.find(|row| row[0] == id).expect("a wallet")[3] = word;
    }

    pub fn frozen(&self, id: u64) -> u64 {
        self.wallet_row(id).expect("a wallet")[3]
    }

    pub fn escrow(&self, number: usize) -> &[u64] {
        &self.escrows[(number - 1) * 8..number * 8]
    }

    pub fn receipt(&self, number: usize) -> &[u64] {
        &self.receipts[(number - 1) * 14..number * 14]
    }

    pub fn entry(&self, number: usize) -> &[u64] {
        &self.journal[(number - 1) * 8..number * 8]
    }
}

#[track_caller]
pub fn bytes(submission: &Submission) -> [u8; 108] {
    let mut out = [0; 108];
    assert_eq!(write(submission, &mut out), 0, "{:?}", submission);
    out
}

/// The bytes of these fields, malformed or not; no writer is asked.
pub fn raw(s: &Submission) -> [u8; 108] {
    let mut out = [0; 108];
    out[..4].copy_from_slice(&[0xA7, 0x3C, s.op, s.flags]);
    let words = [
        s.now, s.signer, s.nonce, s.issued, s.expires, s.target, s.amount, s.until, s.link,
    ];
    let places = out[4..].chunks_exact_mut(8);
    for (place, word) in places.zip(words.iter().chain(&s.hash)) {
        place.copy_from_slice(&word.to_le_bytes());
    }
    out
}

/// A signed record, valid from now for one minute.
pub fn signed(op: u8, now: u64, signer: u64, nonce: u64) -> Submission {
    Submission {
        op,
        flags: SIGNED,
        now,
        signer,
        nonce,
        issued: now,
        expires: now + 60_000,
        ..Submission::default()
    }
}

/// Signer 1 is the admin.
pub fn grant(now: u64, nonce: u64, target: u64, amount: u64) -> Submission {
    Submission {
        flags: SIGNED | ADMIN,
        target,
        amount,
        ..signed(1, now, 1, nonce)
    }
}

pub fn transfer(now: u64, from: u64, nonce: u64, target: u64, amount: u64) -> Submission {
    Submission {
        target,
        amount,
        ..signed(2, now, from, nonce)
    }
}

pub fn open(now: u64, from: u64, nonce: u64, target: u64, amount: u64, until: u64) -> Submission {
    Submission {
        target,
        amount,
        until,
        ..signed(3, now, from, nonce)
    }
}

/// Operations 4 and 5.
pub fn close(op: u8, now: u64, signer: u64, nonce: u64, target: u64) -> Submission {
    Submission {
        target,
        ..signed(op, now, signer, nonce)
    }
}

/// Operation 7, of request 7/13: "bit 2 for accept".
pub fn accept(now: u64, signer: u64, nonce: u64, target: u64) -> Submission {
    Submission {
        flags: SIGNED | BIT2,
        target,
        ..signed(7, now, signer, nonce)
    }
}

/// Operation 7, of request 7/13: "clear for dispute", with a reason.
pub fn dispute(now: u64, signer: u64, nonce: u64, target: u64) -> Submission {
    Submission {
        flags: SIGNED | REASON,
        target,
        ..signed(7, now, signer, nonce)
    }
}

/// From now, signer, nonce and target.
pub type Reply = fn(u64, u64, u64, u64) -> Submission;

pub const REPLIES: [Reply; 2] = [accept, dispute];

/// The same in the form before request 7/13: "7 accept", "8 dispute", and bit 2 in neither.
pub fn old(s: Submission) -> Submission {
    match (s.op, s.flags & BIT2) {
        (7, 0) => Submission { op: 8, ..s },
        (7, _) => Submission {
            flags: s.flags & !BIT2,
            ..s
        },
        _ => s,
    }
}

pub fn without_a_reason(s: Submission) -> Submission {
    Submission {
        flags: s.flags & !REASON,
        ..s
    }
}

pub fn claim(now: u64, from: u64, nonce: u64, to: u64, until: u64, link: u64) -> Submission {
    Submission {
        target: to,
        until,
        link,
        hash: [11, 12, 13, 14],
        ..signed(6, now, from, nonce)
    }
}

pub fn auto(submission: Submission) -> Submission {
    Submission {
        flags: submission.flags | BIT2,
        ..submission
    }
}

pub fn sweep(now: u64, limit: u64) -> Submission {
    Submission {
        op: 9,
        now,
        amount: limit,
        ..Submission::default()
    }
}

pub fn freeze(now: u64, nonce: u64, target: u64, on: bool) -> Submission {
    Submission {
        flags: SIGNED | ADMIN | if on { BIT2 } else { 0 },
        target,
        ..signed(10, now, 1, nonce)
    }
}

pub fn caps(now: u64, nonce: u64, target: u64, per_tx: u64, daily: u64) -> Submission {
    Submission {
        flags: SIGNED | ADMIN,
        target,
        amount: per_tx,
        link: daily,
        ..signed(11, now, 1, nonce)
    }
}

/// Operation 12, of request 6/13.
pub fn close_wallet(now: u64, nonce: u64, target: u64) -> Submission {
    Submission {
        flags: SIGNED | ADMIN,
        target,
        ..signed(12, now, 1, nonce)
    }
}

/// A small generator, so that the tests need no dependency.
pub struct Dice(pub u64);

impl Dice {
    pub fn word(&mut self) -> u64 {
        self.0 = self.0.wrapping_add(0x9E37_79B9_7F4A_7C15);
        let mut z = self.0;
        z = (z ^ (z >> 30)).wrapping_mul(0xBF58_476D_1CE4_E5B9);
        z = (z ^ (z >> 27)).wrapping_mul(0x94D0_49BB_1331_11EB);
        z ^ (z >> 31)
    }

    pub fn below(&mut self, bound: u64) -> u64 {
        self.word() % bound
    }

    pub fn pick(&mut self, from: &[u64]) -> u64 {
        from[self.below(from.len() as u64) as usize]
    }
}
