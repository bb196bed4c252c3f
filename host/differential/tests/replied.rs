//! What is counted of replies, and of what looks like them, is what the tables say of them. The
//! second program answers here.

mod common;

use common::{after, full, ledger, ways, ENDED, LIVE, NOW, OPEN};
use differential::record::encode;
use differential::replied::{decided, none, NEVER};
use differential::twin::World;
use milebeacon::{Envelope, ReceiptNumber, Submission};

const DEADLINE: u64 = NOW + 300_000;
/// The escrow of the first receipt, and the one of the third.
const ESCROWS: [u64; 2] = [DEADLINE, NOW - 1];

const PENDING: u64 = 1;
const ACCEPTED: u64 = 2;

/// 7 has asked 8 for three things: receipt 1 is on an open escrow, 2 on none, 3 on one that has ended.
fn world() -> World {
    let escrows = [(7, 8, 10, ESCROWS[0], OPEN), (7, 8, 10, ESCROWS[1], ENDED)];
    let mut world = ledger(&[(7, 600, LIVE), (8, 0, LIVE)], &escrows);
    world.receipts.resize(3 * 14, 0);
    for (row, link) in world.receipts.chunks_exact_mut(14).zip([1, 0, 2]) {
        row[..6].copy_from_slice(&[8, 7, link, DEADLINE, 0, PENDING]);
    }
    world.header[6] = 3;
    world
}

/// The same with receipt 1 closed.
fn closed() -> World {
    let mut world = world();
    world.receipts[5] = ACCEPTED;
    world
}

fn accept(signer: u64, now: u64) -> Submission {
    Submission::accept(Envelope::new(now, signer, 99), ReceiptNumber(1))
}

fn dispute(signer: u64, now: u64, reason: bool) -> Submission {
    Submission::dispute(Envelope::new(now, signer, 99), ReceiptNumber(1), reason)
}

fn about(receipt: u64, submission: Submission) -> Submission {
    Submission {
        target: receipt,
        ..submission
    }
}

fn with_flags(flags: u8, submission: Submission) -> Submission {
    Submission {
        flags,
        ..submission
    }
}

/// The same as a dispute was before.
fn by_operation_8(submission: Submission) -> Submission {
    Submission {
        op: 8,
        ..submission
    }
}

fn told(world: &World, submission: Submission) -> (u64, Vec<String>) {
    let (answer, left) = after(world, submission);
    (answer, decided(world, &left, &encode(&submission), answer))
}

#[test]
fn what_settled_is_told_by_its_escrow() {
    let cases = [
        (1, "its escrow released", "its escrow left open"),
        (2, "no escrow linked", "no escrow linked"),
        (3, "its escrow not open or stale", "its escrow not open"),
    ];
    for (receipt, accepted, disputed) in cases {
        let way = format!("accept settled, {accepted}");
        let told_of = |submission| told(&world(), about(receipt, submission));
        assert_eq!(told_of(accept(7, NOW)), ways(0, [&way]));
        let way = format!("dispute settled, {disputed}");
        assert_eq!(told_of(dispute(7, NOW, true)), ways(0, [&way]));
    }
}

#[test]
fn a_refusal_is_told_with_the_one_check_behind_it() {
    let late = DEADLINE + 1;
    let no_room = |world| full(world, 7);
    let accepts = [
        (world(), about(9, accept(7, NOW)), "32 alone"),
        (no_room(world()), about(9, accept(7, NOW)), "32 and not 40"),
        (world(), accept(8, NOW), "33 alone"),
        (closed(), accept(8, NOW), "33 and not 34"),
        (world(), accept(8, late), "33 and not 41"),
        (no_room(world()), accept(8, NOW), "33 and not 40"),
        (closed(), accept(7, NOW), "34 alone"),
        (closed(), accept(7, late), "34 and not 41"),
        (no_room(closed()), accept(7, NOW), "34 and not 40"),
        (world(), accept(7, late), "41 alone"),
        (no_room(world()), accept(7, late), "41 and not 40"),
        (no_room(world()), accept(7, NOW), "40 alone"),
    ];
    for (world, submission, checks) in accepts {
        let number = checks[..2].parse().expect("a number");
        let way = format!("accept: {checks}");
        assert_eq!(told(&world, submission), ways(number, [&way]));
        let disputed = Submission {
            flags: 0b1001,
            ..submission
        };
        let way = format!("dispute: {checks}");
        assert_eq!(told(&world, disputed), ways(number, [&way]));
    }
}

#[test]
fn a_missing_reason_is_told_behind_the_others() {
    let late = DEADLINE + 1;
    let cases = [
        (world(), about(9, dispute(7, NOW, false)), "32 and not 35"),
        (world(), dispute(8, NOW, false), "33 and not 35"),
        (closed(), dispute(7, NOW, false), "34 and not 35"),
        (world(), dispute(7, late, false), "41 and not 35"),
        (world(), dispute(7, NOW, false), "35 alone"),
        (full(world(), 7), dispute(7, NOW, false), "35 and not 40"),
    ];
    for (world, submission, checks) in cases {
        let number = checks[..2].parse().expect("a number");
        let way = format!("dispute: {checks}");
        assert_eq!(told(&world, submission), ways(number, [&way]));
    }
    // of three nothing is told
    assert_eq!(told(&closed(), dispute(8, NOW, false)), ways(33, []));
}

#[test]
fn a_check_before_those_of_the_receipt_is_told_alone_or_not() {
    let unsigned = with_flags(0b0100, accept(7, NOW));
    let way = ["accept: 6", "accept: 6 alone"];
    assert_eq!(told(&world(), unsigned), ways(6, way));
    let three = with_flags(0b0000, dispute(8, NOW, false));
    assert_eq!(told(&world(), three), ways(6, ["dispute: 6"]));
    // the same once more
    for submission in [accept(7, NOW), dispute(7, NOW, true)] {
        let (_, again) = after(&world(), submission);
        let name = submission.reply().expect("a reply");
        let both = [format!("{name}: 11"), format!("{name}: 11 and not 34")];
        assert_eq!(told(&again, submission), (11, both.to_vec()));
    }
}

#[test]
fn what_is_malformed_is_told_by_what_it_would_be() {
    let late = DEADLINE + 1;
    let both = |signer, now| with_flags(0b1101, accept(signer, now));
    let reason = "accept with a reason: 3";
    let told = |submission| told(&world(), submission);
    let one = |way: String| (3, vec![way]);
    assert_eq!(told(both(7, NOW)), one(format!("{reason} alone")));
    assert_eq!(told(both(8, NOW)), one(format!("{reason} and not 33")));
    assert_eq!(told(both(7, late)), one(format!("{reason} and not 41")));
    let unsigned = with_flags(0b1100, accept(7, NOW));
    assert_eq!(told(unsigned), one(format!("{reason} and not 6")));

    for (bit, reply) in [(0b0101, "accept"), (0b1001, "dispute")] {
        for other in [0b10, 0b1_0000, 0b1000_0000] {
            let flags = with_flags(bit | other, accept(7, NOW));
            assert_eq!(
                told(flags),
                one(format!("{reply} with another bit: 3 alone"))
            );
        }
    }
    let cases = [
        (0b1001, "alone"),
        (0b0001, "and not 35"),
        (0b1000, "and not 6"),
        (0b0000, "and not 6"),
    ];
    for (flags, rest) in cases {
        let old = by_operation_8(with_flags(flags, dispute(7, NOW, true)));
        let way = format!("operation 8, flags {flags:04b}: 3 {rest}");
        assert_eq!(told(old), one(way));
    }
    let new = by_operation_8(accept(7, NOW));
    assert_eq!(told(new), one("operation 8 with bit 2: 3 alone".to_owned()));
}

#[test]
fn nothing_is_told_of_what_does_not_look_like_a_reply() {
    let more = Submission {
        amount: 1,
        ..accept(7, NOW)
    };
    assert_eq!(told(&world(), more), ways(3, []));
    assert_eq!(told(&world(), by_operation_8(more)), ways(3, []));
    let sweep = Submission::sweep(NOW, 1);
    assert_eq!(told(&world(), sweep), ways(0, []));
    let record = encode(&accept(7, NOW));
    for answer in [1, 2] {
        assert_eq!(decided(&world(), &world(), &record, answer), [""; 0]);
    }
    assert_eq!(decided(&world(), &world(), &record[..107], 3), [""; 0]);
}

#[test]
fn any_other_answer_must_not_be() {
    let [otherwise, journal, receipt] = NEVER;
    let told = |left: &World, submission: Submission, answer| {
        decided(&world(), left, &encode(&submission), answer)
    };
    let (_, left) = after(&world(), accept(7, NOW));
    for answer in [3, 32, 35, 40] {
        assert_eq!(told(&left, accept(7, NOW), answer), [otherwise]);
    }
    let bare = dispute(7, NOW, false);
    for answer in [0, 3, 40] {
        assert_eq!(told(&left, bare, answer), [otherwise]);
    }
    assert_eq!(told(&left, by_operation_8(bare), 35), [otherwise]);
    let both = with_flags(0b1101, accept(7, NOW));
    assert_eq!(told(&left, both, 0), [otherwise]);

    // settled, but the journal has the old number or the receipt the other state
    let mut old = left.clone();
    old.journal[2] = 8;
    assert_eq!(told(&old, accept(7, NOW), 0), [journal]);
    assert_eq!(told(&left, dispute(7, NOW, true), 0), [receipt]);
}

#[test]
fn each_way_that_is_asked_for_is_told_once() {
    let reached = none();
    let missing = reached.missing();
    let mut sorted = missing.clone();
    sorted.sort_unstable();
    sorted.dedup();
    assert_eq!(sorted.len(), missing.len());
}
