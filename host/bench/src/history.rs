//! A ledger from its fresh start until its tables are full, by submissions alone, and what comes
//! then: what a recording is made of. (The ledgers of `fill` are written by hand, and no recording
//! leads to them.)

use milebeacon::{Claim, Envelope, EscrowNumber, Sizes, Submission};

use crate::fill::{id, Ids, NOW};

/// When the tables are filled. Sweeps and what comes after them are of `NOW`.
const START: u64 = NOW - 1_000;
/// One wallet in so many is granted credits and pays; the others are made by what they are paid.
const SHARE: usize = 16;
const SWEPT_AT_ONCE: u64 = 1_000;

/// The submissions of a ledger, each of which settles.
struct Filling {
    sizes: Sizes,
    submissions: Vec<Submission>,
}

impl Filling {
    /// How many wallets pay.
    fn payers(&self) -> usize {
        (self.sizes.wallets + SHARE - 1) / SHARE
    }

    /// The payer and the payee of a payment.
    fn parties(&self, place: usize) -> (u64, u64) {
        let from = place % self.payers() * SHARE;
        let to = place % self.sizes.wallets;
        let to = if to == from {
            (to + 1) % self.sizes.wallets
        } else {
            to
        };
        (id(Ids::InARow, from), id(Ids::InARow, to))
    }

    /// An envelope with a nonce that nobody has used.
    fn envelope(&self, signer: u64) -> Envelope {
        Envelope::new(START, signer, 1 + self.submissions.len() as u64)
    }

    fn grants(&mut self) {
        for payer in 0..self.payers() {
            let envelope = self.envelope(1).by_admin();
            let target = id(Ids::InARow, payer * SHARE);
            let grant = Submission::grant(envelope, target, 1_000_000_000);
            self.submissions.push(grant);
        }
    }

    /// Every fourth stays open; a sweep closes the others.
    fn opens(&mut self) {
        for place in 0..self.sizes.escrows {
            let (from, to) = self.parties(place);
            let until = if place % 4 == 0 {
                NOW + 3_600_000
            } else {
                START + 1
            };
            let amount = 1 + place as u64 % 1_000;
            let open = Submission::open(self.envelope(from), to, amount, until);
            self.submissions.push(open);
        }
    }

    /// Claims on the escrows that stay open, as far as there is journal for them.
    fn claims(&mut self) {
        let room = self.sizes.journal.saturating_sub(self.submissions.len());
        let lasting = (self.sizes.escrows + 3) / 4;
        for place in 0..self.sizes.receipts.min(room) {
            let escrow = place % lasting * 4;
            let (from, to) = self.parties(escrow);
            let claim = Claim {
                requester: from,
                until: NOW + 1_800_000,
                escrow: Some(EscrowNumber(escrow as u64 + 1)),
                hash: [place as u8; 32],
                auto_accept: place % 2 == 0,
            };
            let claim = Submission::claim(self.envelope(to), claim);
            self.submissions.push(claim);
        }
    }

    /// Transfers, for the rest of the journal.
    fn transfers(&mut self) {
        while self.submissions.len() < self.sizes.journal {
            let (from, to) = self.parties(self.submissions.len());
            let transfer = Submission::transfer(self.envelope(from), to, 1);
            self.submissions.push(transfer);
        }
    }

    /// Sweeps take no journal row.
    fn sweeps(&mut self) {
        for _ in 0..self.sizes.escrows as u64 / SWEPT_AT_ONCE + 1 {
            let sweep = Submission::sweep(NOW, SWEPT_AT_ONCE);
            self.submissions.push(sweep);
        }
    }
}

/// Submissions that settle one after the other, from a fresh start until wallets, escrows and
/// journal are full and receipts are as far as the journal lets them.
pub fn filling(sizes: Sizes) -> Vec<Submission> {
    let mut filling = Filling {
        sizes,
        submissions: Vec::new(),
    };
    filling.grants();
    filling.opens();
    filling.claims();
    filling.transfers();
    filling.sweeps();
    filling.submissions
}

/// What can come when the journal is full, with its answer. None of it changes a row, so there can be
/// as many as wanted.
pub struct Late {
    pub name: &'static str,
    pub answer: u64,
    pub submissions: Vec<Submission>,
}

/// `count` submissions of each kind.
pub fn late(sizes: Sizes, count: usize) -> [Late; 3] {
    let filling = Filling {
        sizes,
        submissions: Vec::new(),
    };
    let transfer = |place: usize| {
        let (from, to) = filling.parties(place);
        // above all nonces that were used
        let nonce = 1_000_000 + place as u64;
        Submission::transfer(Envelope::new(NOW, from, nonce), to, 1)
    };
    let mut opens = Filling {
        sizes,
        submissions: Vec::new(),
    };
    opens.grants();
    opens.opens();
    let opens = &opens.submissions[filling.payers()..];
    let retry = |place: usize| Submission {
        now: NOW,
        // from all over the journal
        ..opens[place * 97 % opens.len()]
    };
    [
        Late {
            name: "transfer, refused at the last check (40)",
            answer: 40,
            submissions: (0..count).map(transfer).collect(),
        },
        Late {
            name: "retry of an open (11)",
            answer: 11,
            submissions: (0..count).map(retry).collect(),
        },
        Late {
            name: "sweep with nothing due (0)",
            answer: 0,
            submissions: vec![Submission::sweep(NOW, SWEPT_AT_ONCE); count],
        },
    ]
}
