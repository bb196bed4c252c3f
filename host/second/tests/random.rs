//! Long random runs: refusals change nothing, soundness is kept, a sweep's
//! word is the smaller of limit and due rows, and the balances are the sum over
//! the settled submissions. Random words never panic.

mod common;
use common::*;
use second::{is_sound, submit, Submission, Tables};
use std::collections::{BTreeMap, BTreeSet};

fn random_submission(dice: &mut Dice, w: &World, now: u64) -> Submission {
    let signer = 1 + dice.below(6);
    let nonce = dice.below(2_000);
    let target = dice.below(7);
    let amount = dice.pick(&[0, 1, 5, 50, 500, 5_000, 100_000_001, MOST]);
    let span = dice.pick(&[0, 1, 300_000, 400_000, 3_000_000, 604_800_001]);
    let escrow = dice.below(w.header[5] + 2);
    let receipt = dice.below(w.header[6] + 2);
    let mut s = match dice.below(19) {
        0 | 1 => grant(now, nonce, target, amount),
        2 => transfer(now, signer, nonce, target, amount),
        3..=5 => open(now, signer, nonce, target, amount, now + span),
        6 => close(4, now, signer, nonce, escrow),
        7 => close(5, now, signer, nonce, escrow),
        8 | 9 => accept(now, signer, nonce, receipt),
        10 => dispute(now, signer, nonce, receipt),
        11..=14 => claim(now, signer, nonce, target, now + span, escrow),
        15 => return sweep(now, dice.below(6)),
        16 => freeze(now, nonce, target, dice.below(8) == 0),
        17 => caps(now, nonce, target, amount * 1_000, amount * 9_000),
        _ => close_wallet(now, nonce, target),
    };
    if s.op == 6 && (1..=w.header[5]).contains(&escrow) && dice.below(4) != 0 {
        s.target = w.escrow(escrow as usize)[0];
        s.signer = w.escrow(escrow as usize)[1];
    }
    if s.op == 7 && (1..=w.header[6]).contains(&receipt) && dice.below(2) == 0 {
        s.signer = w.receipt(receipt as usize)[1];
    }
    if s.op == 6 && dice.below(2) == 0 {
        s = auto(s);
    }
    if matches!(s.op, 4 | 5) && dice.below(3) == 0 {
        s.flags |= ADMIN;
    }
    if dice.below(10) == 0 {
        s.flags &= !(1 << dice.below(4));
    }
    s
}

fn due(w: &World, now: u64) -> u64 {
    let receipts = w.receipts.chunks(14).take(w.header[6] as usize);
    let escrows = w.escrows.chunks(8).take(w.header[5] as usize);
    let receipts = receipts.filter(|r| r[5] == 1 && r[3] < now).count();
    let escrows = escrows.filter(|e| e[4] == 1 && e[3] < now).count();
    (receipts + escrows) as u64
}

/// "A wallet's balance is the grants and transfers to it, the escrows released
/// to it and its own refunded or expired, less its transfers and opens; held is
/// its opens less those of them that ended."
#[derive(Default)]
struct Sums {
    balance: BTreeMap<u64, i128>,
    held: BTreeMap<u64, i128>,
    opened: BTreeMap<u64, Submission>,
}

impl Sums {
    fn add(&mut self, id: u64, balance: i128, held: i128) {
        *self.balance.entry(id).or_insert(0) += balance;
        *self.held.entry(id).or_insert(0) += held;
    }

    fn ended(&mut self, escrow: u64, released: bool) {
        let s = self.opened.remove(&escrow).expect("an open escrow");
        let paid = if released { s.target } else { s.signer };
        self.add(s.signer, 0, -i128::from(s.amount));
        self.add(paid, i128::from(s.amount), 0);
    }

    fn settled(&mut self, s: &Submission, word: u64) {
        let amount = i128::from(s.amount);
        match s.op {
            1 => self.add(s.target, amount, 0),
            2 => {
                self.add(s.signer, -amount, 0);
                self.add(s.target, amount, 0);
            }
            3 => {
                self.add(s.signer, -amount, amount);
                self.add(s.target, 0, 0);
                self.opened.insert(word, *s);
            }
            4 => self.ended(s.target, true),
            5 => self.ended(s.target, false),
            7 if word != 0 => self.ended(word, true),
            _ => (),
        }
    }
}

/// "a wallet named by the record (signer in 2, 3, 6; target in 1, 2, 3, 6, 10, 11, 12) is closed".
fn names_a_closed_wallet(w: &World, s: &Submission) -> bool {
    let closed = |id| w.wallet_row(id).map_or(false, |row| row[3] == 2);
    (matches!(s.op, 2 | 3 | 6) && closed(s.signer))
        || (matches!(s.op, 1..=3 | 6 | 10..=12) && closed(s.target))
}

/// On a ledger that began afresh a closed wallet has no credits, and none can come to it.
fn closed_are_empty(w: &World) -> bool {
    let wallets = w.wallets.chunks(6).take(w.header[4] as usize);
    let escrows = w.escrows.chunks(8).take(w.header[5] as usize);
    let open: Vec<_> = escrows.filter(|escrow| escrow[4] == 1).collect();
    wallets.filter(|wallet| wallet[3] == 2).all(|wallet| {
        let named = |escrow: &&[u64]| escrow[..2].contains(&wallet[0]);
        wallet[1..3] == [0, 0] && !open.iter().any(named)
    })
}

fn states(w: &World) -> Vec<u64> {
    let rows = w.escrows.chunks(8).take(w.header[5] as usize);
    rows.map(|row| row[4]).collect()
}

fn one_run(seed: u64, answers: &mut BTreeSet<u64>) {
    let mut dice = Dice(seed);
    let mut w = World::new(5, 12, 6, 70);
    let mut sums = Sums::default();
    let mut now = dice.below(100);
    for _ in 0..500 {
        now += dice.pick(&[0, 0, 1, 200, 60_000, 400_000]);
        let late = now.saturating_sub(u64::from(dice.below(40) == 0));
        let s = random_submission(&mut dice, &w, late);
        let before = w.clone();
        let (answer, word) = w.send(&s);
        answers.insert(answer);
        if s.op == 7 && matches!(answer, 0 | 41) {
            // Both are pending; the one that settles is in time, the other is not.
            let receipt = before.receipt(s.target as usize);
            assert_eq!(receipt[5], 1);
            assert_eq!(receipt[3] < s.now, answer == 41);
        }
        if matches!(answer, 0 | 17..=43) {
            assert_eq!(answer == 43, names_a_closed_wallet(&before, &s));
        }
        assert!(answer != 42 || s.op == 12);
        if s.op == 12 && matches!(answer, 0 | 42) {
            let (balance, locked) = before.has(s.target);
            let escrows = before.escrows.chunks(8).take(before.header[5] as usize);
            let open_to = escrows.filter(|e| e[4] == 1 && e[1] == s.target).count();
            assert_eq!((balance, locked, open_to) != (0, 0, 0), answer == 42);
        }
        if answer != 0 {
            assert_eq!(word, 0);
            assert!(w == before);
            continue;
        }
        assert!(w.sound());
        assert!(closed_are_empty(&w));
        for row in before.wallets.chunks(6).take(before.header[4] as usize) {
            let closed = row[3] == 2 || (s.op == 12 && s.target == row[0]);
            assert_eq!(w.frozen(row[0]) == 2, closed);
        }
        assert_eq!(w.header[2], s.now);
        if s.op == 7 {
            // "bit 2 for accept, clear for dispute", and a dispute settles with a reason only
            let accepts = s.flags & BIT2 != 0;
            assert_eq!(w.receipt(s.target as usize)[5], if accepts { 2 } else { 3 });
            assert!(accepts || (s.flags & REASON != 0 && word == 0));
        }
        if s.op == 9 {
            assert_eq!(word, s.amount.min(due(&before, s.now)));
            for (number, (old, new)) in (1..).zip(states(&before).iter().zip(states(&w))) {
                if *old != new {
                    sums.ended(number, new == 2);
                }
            }
        } else {
            let row = w.header[7] as usize;
            let entry = [
                s.signer,
                s.nonce,
                u64::from(s.op),
                s.target,
                s.amount,
                s.now,
                word,
                s.link,
            ];
            assert_eq!(w.entry(row), entry);
            sums.settled(&s, word);
        }
        assert_eq!(w.header[4] as usize, sums.balance.len());
        for (&id, &balance) in &sums.balance {
            let (has, held) = w.has(id);
            assert_eq!(i128::from(has), balance);
            assert_eq!(i128::from(held), sums.held[&id]);
        }
    }
}

#[test]
fn random_runs() {
    let mut answers = BTreeSet::new();
    for seed in 0..300 {
        one_run(seed, &mut answers);
    }
    for number in [
        0, 4, 5, 6, 7, 11, 12, 13, 14, 15, 16, 17, 18, 20, 21, 24, 25, 27,
    ] {
        assert!(answers.contains(&number), "{} in {:?}", number, answers);
    }
    for number in [
        19, 22, 23, 28, 29, 30, 31, 32, 33, 34, 35, 37, 38, 39, 40, 41, 42, 43,
    ] {
        assert!(answers.contains(&number), "{} in {:?}", number, answers);
    }
}

#[test]
fn random_words_never_panic() {
    let mut dice = Dice(99);
    for _ in 0..20_000 {
        let mut tables: Vec<Vec<u64>> = Vec::new();
        for words in [8, 6, 8, 14, 8] {
            let length = words * (1 + dice.below(3)) - dice.pick(&[0, 0, 0, 0, 0, 0, 1, words]);
            let length = if words == 8 && tables.is_empty() {
                dice.pick(&[8, 8, 8, 8, 8, 8, 0, 7])
            } else {
                length
            };
            let word = |_| match dice.below(3) {
                0 => dice.below(5),
                1 => u64::MAX - dice.below(3),
                _ => dice.word(),
            };
            tables.push((0..length).map(word).collect());
        }
        if let Some(edition) = tables[0].first_mut() {
            *edition = 1;
        }
        let record: Vec<u8> = (0..108).map(|_| dice.word() as u8).collect();
        let before = tables.clone();
        if let [header, wallets, escrows, receipts, journal] = &mut tables[..] {
            let mut lent = Tables {
                header,
                wallets,
                escrows,
                receipts,
                journal,
            };
            let sound = is_sound(&lent);
            let (answer, word) = submit(&mut lent, &record);
            assert_eq!(word, 0);
            assert!((answer == 3) == sound && (1..=3).contains(&answer));
        }
        assert!(tables == before);
    }
}
