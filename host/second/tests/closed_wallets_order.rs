//! Request 6/13: answer 43 "stands right after 16", and 42 "follows it". Each of them together with
//! every other check that may hold with it.

mod common;
use common::*;
use second::Submission;

const NOW: u64 = 10_000_000;
const WINDOW: u64 = NOW + 300_000;
const DEADLINE: u64 = NOW + 1_000_000;
const MOST_GRANTED: u64 = 1_000_000_000_000_000_000;

/// 7 has credits, 8 and 9 have none, escrow 1 is from 7 to 9, and the records below settle.
fn world() -> World {
    let mut world = World::usual();
    world.settles(grant(NOW, 1, 7, 50_000));
    world.settles(transfer(NOW, 7, 1, 8, 5));
    world.settles(transfer(NOW, 8, 1, 7, 5));
    world.settles(open(NOW, 7, 2, 9, 1_000, DEADLINE));
    world
}

/// From 7 to 8, from 9 (the provider) to 7, or from the admin about 8.
fn record(op: u8) -> Submission {
    match op {
        1 => grant(NOW, 99, 8, 5),
        2 => transfer(NOW, 7, 99, 8, 5),
        3 => open(NOW, 7, 99, 8, 5, DEADLINE),
        6 => claim(NOW, 9, 99, 7, WINDOW, 1),
        10 => freeze(NOW, 99, 8, true),
        11 => caps(NOW, 99, 8, 5, 5),
        _ => close_wallet(NOW, 99, 8),
    }
}

/// Those in which a closed wallet is refused.
const NAMING: [u8; 7] = [1, 2, 3, 6, 10, 11, 12];

/// Which of the wallets that a record names is closed.
#[derive(Clone, Copy, Debug, PartialEq, Eq)]
enum Closed {
    Signer,
    Target,
    Both,
}

fn set(w: &mut World, s: &Submission, closed: Closed) {
    if closed != Closed::Target {
        w.set_frozen(s.signer, 2);
    }
    if closed != Closed::Signer {
        w.set_frozen(s.target, 2);
    }
}

/// The wallets a record of this operation names, by the request's list.
fn closings(op: u8) -> Vec<Closed> {
    if matches!(op, 2 | 3 | 6) {
        vec![Closed::Signer, Closed::Target, Closed::Both]
    } else {
        vec![Closed::Target]
    }
}

/// One more thing that is wrong: its answer, the operations it is a fault in, which wallet it takes
/// away so that it cannot be closed, and what it is.
type Fault = (
    u64,
    &'static [u8],
    Option<Closed>,
    fn(&mut World, &mut Submission),
);

/// A table without an unwritten row.
fn full(table: &mut Vec<u64>, rows: u64, words: usize) {
    table.truncate(rows as usize * words);
}

const ALL: &[u8] = &NAMING;
const PAYING: &[u8] = &[2, 3];

/// What stands above 43 in the table, in the table's order.
const ABOVE: &[Fault] = &[
    (4, ALL, None, |w, _| w.header[2] = NOW + 1),
    (5, &[1, 2, 3, 6], None, |w, _| w.header[1] = 1),
    (6, ALL, None, |_, s| s.flags &= !SIGNED),
    (7, &[1, 10, 11, 12], None, |_, s| s.flags &= !ADMIN),
    (8, ALL, None, |_, s| {
        s.issued = NOW + 30_001;
        s.expires = s.issued;
        s.until += if s.op == 6 { 30_001 } else { 0 };
    }),
    (9, ALL, None, |_, s| {
        s.issued = NOW - 1;
        s.expires = NOW - 1;
    }),
    (10, ALL, None, |_, s| s.expires = s.issued + 3_600_001),
    // 9 has used no nonce yet.
    (11, ALL, None, |w, s| {
        s.nonce = 77;
        w.journal[..2].copy_from_slice(&[s.signer, 77]);
    }),
    (12, &[1, 2, 3], None, |_, s| s.amount = 0),
    (12, &[11], None, |_, s| s.link = MOST + 1),
    (13, PAYING, Some(Closed::Signer), |_, s| s.signer = 70),
    (14, PAYING, Some(Closed::Signer), |w, s| {
        w.set_frozen(s.signer, 1)
    }),
    (15, &[1], Some(Closed::Both), |_, s| s.target = 0),
    (15, &[2, 3, 6], Some(Closed::Target), |_, s| s.target = 0),
    (15, &[2, 3, 6], Some(Closed::Target), |_, s| {
        s.target = s.signer
    }),
    (16, &[10, 11, 12], Some(Closed::Both), |_, s| s.target = 70),
    (16, &[11, 12], Some(Closed::Both), |_, s| s.target = 0),
];

/// What stands below 43, but for 42.
const BELOW: &[Fault] = &[
    (17, PAYING, None, |_, s| s.amount = 49_001),
    (18, PAYING, None, |w, _| w.wallets[4] = 4),
    (19, PAYING, None, |w, _| w.wallets[5] = 4),
    (20, &[3], None, |_, s| s.until = NOW),
    (21, &[3], None, |_, s| s.until = NOW + 604_800_001),
    (22, &[6], Some(Closed::Signer), |_, s| s.signer = 70),
    (23, &[6], Some(Closed::Target), |_, s| s.target = 70),
    (24, &[6], None, |_, s| s.until = WINDOW - 1),
    (25, &[6], None, |_, s| s.until = NOW + 604_800_001),
    (26, &[6], None, |_, s| {
        s.issued = NOW - 300_001;
        s.until = NOW - 1;
    }),
    (27, &[6], None, |_, s| s.link = 2),
    (29, &[6], None, |w, _| w.escrows[3] = NOW - 1),
    (30, &[6], None, |w, _| w.escrows[1] = 8),
    (31, &[6], None, |w, _| w.escrows[3] = WINDOW - 1),
    (36, &[1], None, |w, _| {
        w.wallets[1] += MOST_GRANTED - 50_000;
        w.header[3] = MOST_GRANTED;
    }),
    (37, &[1], Some(Closed::Both), |w, s| {
        s.target = 70;
        full(&mut w.wallets, 3, 6);
    }),
    (37, PAYING, Some(Closed::Target), |w, s| {
        s.target = 70;
        full(&mut w.wallets, 3, 6);
    }),
    (38, &[3], None, |w, _| full(&mut w.escrows, 1, 8)),
    (39, &[6], None, |w, _| {
        // a first receipt, and no room for a second
        w.settles(claim(NOW, 9, 98, 7, WINDOW, 0));
        full(&mut w.receipts, 1, 14);
    }),
    (40, ALL, None, |w, _| {
        let rows = w.header[7];
        full(&mut w.journal, rows, 8);
    }),
];

/// The three ways of not being empty; 12 is about 8.
const NOT_EMPTY: [fn(&mut World); 3] = [
    |w| {
        w.settles(transfer(NOW, 7, 50, 8, 5));
    },
    |w| {
        w.settles(transfer(NOW, 7, 50, 8, 5));
        w.settles(open(NOW, 8, 51, 7, 5, DEADLINE));
    },
    |w| {
        w.settles(open(NOW, 7, 50, 8, 5, DEADLINE));
    },
];

#[test]
fn without_a_fault_they_settle_and_closed_alone_is_43() {
    for op in NAMING {
        world().settles(record(op));
        for closed in closings(op) {
            let mut w = world();
            set(&mut w, &record(op), closed);
            assert!(w.sound());
            w.refuses(record(op), 43);
        }
    }
}

/// Each fault by itself, then with each closing that it leaves possible.
#[track_caller]
fn with_closings(fault: &Fault, answer: u64) -> usize {
    let mut tried = 0;
    let &(alone, ops, takes, make) = fault;
    for &op in ops {
        let (mut w, mut s) = (world(), record(op));
        make(&mut w, &mut s);
        assert!(w.sound());
        w.refuses(s, alone);
        for closed in closings(op) {
            if takes == Some(Closed::Both) || takes == Some(closed) {
                continue;
            }
            if takes.is_some() && closed == Closed::Both {
                continue;
            }
            let (mut w, mut s) = (world(), record(op));
            make(&mut w, &mut s);
            let named = if takes.is_some() { s } else { record(op) };
            set(&mut w, &named, closed);
            assert!(w.sound());
            w.refuses(s, answer);
            tried += 1;
        }
    }
    tried
}

#[test]
fn what_stands_above_43_comes_first() {
    for fault in ABOVE {
        let tried = with_closings(fault, fault.0);
        assert_eq!(tried > 0, fault.2 != Some(Closed::Both));
    }
}

#[test]
fn what_stands_below_43_comes_later() {
    for fault in BELOW {
        let tried = with_closings(fault, 43);
        assert_eq!(tried > 0, fault.2 != Some(Closed::Both));
    }
}

#[test]
fn above_42_below_42_and_42_itself() {
    let of_12 = |(_, ops, _, _): &&Fault| ops.contains(&12);
    for not_empty in NOT_EMPTY {
        let mut w = world();
        not_empty(&mut w);
        w.refuses(record(12), 42);
        // 43 is the higher number and the earlier row.
        w.set_frozen(8, 2);
        w.refuses(record(12), 43);
        let below = BELOW
            .iter()
            .map(|&(_, ops, takes, make)| (42, ops, takes, make));
        let all: Vec<Fault> = ABOVE.iter().copied().chain(below).collect();
        for (answer, _, _, make) in all.iter().filter(of_12) {
            let (mut w, mut s) = (world(), record(12));
            not_empty(&mut w);
            make(&mut w, &mut s);
            w.refuses(s, *answer);
        }
    }
    let below: Vec<u64> = BELOW.iter().filter(of_12).map(|fault| fault.0).collect();
    assert_eq!(below, [40]);
}

/// The rows of the table that may refuse operation 12, from the top; 5 is not among them.
const ROWS: [u64; 11] = [4, 6, 7, 8, 9, 10, 11, 16, 43, 42, 40];

/// One bit for each of the rows, and one for a frozen system.
fn closing(wrong: u32) -> (World, Submission) {
    let is = |number: u64| ROWS.iter().position(|&row| row == number);
    let is = |number| is(number).map_or(false, |row| wrong & (1 << row) != 0);
    let (mut w, mut s) = (world(), record(12));
    if is(42) {
        NOT_EMPTY[wrong as usize % 3](&mut w);
    }
    if is(43) {
        w.set_frozen(8, 2);
    }
    w.header[1] = u64::from(wrong >> ROWS.len() & 1);
    let faults = ABOVE.iter().chain(BELOW);
    for &(answer, _, _, make) in faults.filter(|fault| fault.1.contains(&12) && is(fault.0)) {
        match answer {
            // 8 and 9 never hold together; 10 may with each of them.
            9 if s.issued > NOW => {}
            10 if s.expires < NOW => s.issued = s.expires - 3_600_001,
            _ => make(&mut w, &mut s),
        }
    }
    (w, s)
}

#[test]
fn for_operation_12_the_answer_is_the_first_row_that_holds() {
    for wrong in 0..2 << ROWS.len() {
        let asked = |number: u64| {
            let row = ROWS.iter().position(|&row| row == number).unwrap();
            wrong & (1 << row) != 0
        };
        let holds = |number: &&u64| match **number {
            // no condition holds about a wallet that isn't there
            42 | 43 => asked(**number) && !asked(16),
            number => asked(number),
        };
        let (mut w, s) = closing(wrong);
        match ROWS.iter().find(holds) {
            Some(&number) => w.refuses(s, number),
            None => drop(w.settles(s)),
        }
    }
}
