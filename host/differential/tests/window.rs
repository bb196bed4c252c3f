//! What is counted of replies and sweeps at the end of a receipt's window is what the tables say of
//! them. The second program answers here.

use differential::record::encode;
use differential::twin::{lent, Began, World};
use differential::window::{decided, NEVER};
use milebeacon::{Envelope, ReceiptNumber, Reply, Sizes, Submission, Tables};

const NOW: u64 = 1_000_000_000;
/// The deadline of the receipts here, and the one of their escrow.
const DEADLINE: u64 = NOW + 300_000;
const ESCROW: u64 = NOW + 400_000;
const DAY: u64 = 86_400_000;

const REPLIES: [Reply; 2] = [Reply::Accept, Reply::Dispute];

fn settle(world: &mut World, submission: Submission) {
    let answer = second::submit(&mut lent(world), &encode(&submission));
    assert_eq!(answer.0, 0, "{submission:?}");
}

/// A claim by 8 on 7's escrow 1.
fn claim(nonce: u64, until: u64, auto: u8) -> Submission {
    Submission {
        op: 6,
        flags: 1 | auto << 2,
        target: 7,
        until,
        link: 1,
        ..Submission::grant(Envelope::new(NOW, 8, nonce), 0, 0)
    }
}

/// A world of so many journal rows in which 7 holds an escrow for 8, and 8 has claimed on it: one
/// receipt, pending.
fn after_a_claim(rows: usize, until: u64, auto: u8) -> World {
    let sizes = Sizes {
        journal: rows,
        ..Sizes::PROGRAM
    };
    let mut world = Tables::zeros(sizes);
    assert_eq!(second::fresh(&mut lent(&mut world)), 0);
    let admin = Envelope::new(NOW, 1, 1).by_admin();
    settle(&mut world, Submission::grant(admin, 7, 50_000));
    let open = Submission::open(Envelope::new(NOW, 7, 1), 8, 600, ESCROW);
    settle(&mut world, open);
    settle(&mut world, claim(1, until, auto));
    world
}

fn claimed() -> World {
    after_a_claim(9, DEADLINE, 0)
}

/// A reply to receipt 1 by this signer, with a reason if it is a dispute.
fn replied(reply: Reply, signer: u64, now: u64) -> Submission {
    let envelope = Envelope::new(now, signer, 99);
    match reply {
        Reply::Accept => Submission::accept(envelope, ReceiptNumber(1)),
        Reply::Dispute => Submission::dispute(envelope, ReceiptNumber(1), true),
    }
}

fn accept(now: u64) -> Submission {
    replied(Reply::Accept, 7, now)
}

fn without_a_reason(now: u64) -> Submission {
    Submission::dispute(Envelope::new(now, 7, 99), ReceiptNumber(1), false)
}

/// The answer, and what the submission came to on a ledger that began so.
fn told_on(began: Began, world: &World, submission: Submission) -> (u64, Vec<String>) {
    let record = encode(&submission);
    let (answer, _) = second::submit(&mut lent(&mut world.clone()), &record);
    (answer, decided(world, &record, answer, began))
}

fn told(world: &World, submission: Submission) -> (u64, Vec<String>) {
    told_on(Began::Afresh, world, submission)
}

fn ways<const N: usize>(answer: u64, ways: [&str; N]) -> (u64, Vec<String>) {
    (answer, ways.map(str::to_owned).to_vec())
}

#[test]
fn a_reply_is_told_by_the_side_of_the_deadline() {
    let world = claimed();
    for reply in REPLIES {
        let at = format!("{reply} settled at the deadline");
        let just = format!("{reply} refused one millisecond after the deadline");
        let days = format!("{reply} refused two days or more after the deadline");
        let within = format!("{reply} refused after the deadline, and not after its escrow's");
        let told_at = |now| told(&world, replied(reply, 7, now));
        assert_eq!(told_at(DEADLINE - 1), ways(0, []));
        assert_eq!(told_at(DEADLINE), ways(0, [&at]));
        assert_eq!(told_at(DEADLINE + 1), ways(41, [&just, &within]));
        assert_eq!(told_at(ESCROW), ways(41, [&within]));
        assert_eq!(told_at(ESCROW + 1), ways(41, []));
        assert_eq!(told_at(DEADLINE + 2 * DAY - 1), ways(41, []));
        assert_eq!(told_at(DEADLINE + 2 * DAY), ways(41, [&days]));
    }
}

#[test]
fn a_closed_receipt_answers_34_on_both_sides() {
    for reply in REPLIES {
        let mut world = claimed();
        settle(&mut world, replied(reply, 7, DEADLINE - 1));
        let again = |now| Submission {
            nonce: 100,
            ..replied(reply, 7, now)
        };
        let way = |when| format!("{reply} of a closed receipt answered 34 {when}");
        for now in [DEADLINE - 1, DEADLINE] {
            let way = way("within the window");
            assert_eq!(told(&world, again(now)), ways(34, [&way]));
        }
        for now in [DEADLINE + 1, DEADLINE + 3 * DAY] {
            let way = way("after the deadline");
            assert_eq!(told(&world, again(now)), ways(34, [&way]));
        }
    }
}

#[test]
fn a_dispute_without_a_reason_is_told_by_its_answer() {
    let world = claimed();
    let in_time = "dispute without a reason answered 35 at the deadline";
    let just = "dispute refused one millisecond after the deadline";
    let within = "dispute refused after the deadline, and not after its escrow's";
    let late = "dispute without a reason answered 41 one millisecond after the deadline";
    let told_at = |now| told(&world, without_a_reason(now));
    assert_eq!(told_at(DEADLINE - 1), ways(35, []));
    assert_eq!(told_at(DEADLINE), ways(35, [in_time]));
    assert_eq!(told_at(DEADLINE + 1), ways(41, [just, within, late]));
    assert_eq!(told_at(ESCROW + 1), ways(41, []));
}

#[test]
fn another_signer_is_told_on_both_sides_of_a_pending_receipt() {
    let mut world = claimed();
    for reply in REPLIES {
        let told_at = |now| told(&world, replied(reply, 8, now));
        let at = "reply by another answered 33 at the deadline";
        let just = "reply by another answered 33 one millisecond after the deadline";
        assert_eq!(told_at(DEADLINE - 1), ways(33, []));
        assert_eq!(told_at(DEADLINE), ways(33, [at]));
        assert_eq!(told_at(DEADLINE + 1), ways(33, [just]));
        assert_eq!(told_at(DEADLINE + 2), ways(33, []));
    }
    settle(&mut world, accept(NOW));
    for now in [DEADLINE, DEADLINE + 1] {
        assert_eq!(told(&world, replied(Reply::Accept, 8, now)), ways(33, []));
    }
}

#[test]
fn a_full_journal_is_told_on_both_sides() {
    let world = after_a_claim(3, DEADLINE, 0);
    for reply in REPLIES {
        let told_at = |now| told(&world, replied(reply, 7, now));
        let in_time = "reply on a full journal answered 40 at the deadline";
        assert_eq!(told_at(DEADLINE - 1), ways(40, []));
        assert_eq!(told_at(DEADLINE), ways(40, [in_time]));
        let just = format!("{reply} refused one millisecond after the deadline");
        let within = format!("{reply} refused after the deadline, and not after its escrow's");
        let full = "reply on a full journal answered 41 one millisecond after the deadline";
        assert_eq!(told_at(DEADLINE + 1), ways(41, [&just, &within, full]));
    }
}

#[test]
fn an_accept_is_told_by_the_escrow_that_it_finds() {
    let both = after_a_claim(9, ESCROW, 0);
    let at = "accept settled at the deadline";
    let released = "accept released its escrow at the deadline of both";
    assert_eq!(told(&both, accept(ESCROW)), ways(0, [at, released]));
    assert_eq!(told(&both, replied(Reply::Dispute, 7, ESCROW)).1.len(), 1);

    let mut closed = claimed();
    settle(&mut closed, claim(2, DEADLINE, 0));
    let second = Submission {
        target: 2,
        nonce: 100,
        ..accept(NOW)
    };
    settle(&mut closed, second);
    // a receipt whose deadline is after its escrow's, which no submission writes
    let mut stale = both.clone();
    stale.receipts[3] = ESCROW + 1;
    for began in [Began::Afresh, Began::Lent] {
        let way = format!("accept found its escrow closed, on {began}");
        assert_eq!(told_on(began, &closed, accept(NOW)), ways(0, [&way]));
        let way = format!("accept found its escrow stale, on {began}");
        assert_eq!(way == NEVER, began == Began::Afresh);
        let told = told_on(began, &stale, accept(ESCROW + 1));
        assert_eq!(told, ways(0, [at, &way]));
    }
    let unlinked = |mut world: World| {
        world.receipts[2] = 0;
        world
    };
    assert_eq!(told(&unlinked(closed), accept(NOW)), ways(0, []));
}

#[test]
fn a_sweep_is_told_by_what_it_closes() {
    let left = "sweep left a receipt at its deadline";
    let closed = "sweep closed a receipt one millisecond after its deadline";
    let world = claimed();
    let sweep = Submission::sweep;
    assert_eq!(told(&world, sweep(DEADLINE - 1, 1)), ways(0, []));
    assert_eq!(told(&world, sweep(DEADLINE, 1)), ways(0, [left]));
    assert_eq!(told(&world, sweep(DEADLINE + 1, 1)), ways(0, [closed]));
    assert_eq!(told(&world, sweep(DEADLINE + 1, 0)), ways(12, []));
    assert_eq!(told(&world, sweep(DEADLINE + 2, 1)), ways(0, []));
    assert_eq!(told(&world, accept(DEADLINE)).1.len(), 1);

    let mut two = after_a_claim(9, DEADLINE, 1);
    settle(&mut two, claim(2, DEADLINE + 1, 1));
    // with the limit used up, nothing is said of what is left
    assert_eq!(told(&two, sweep(DEADLINE + 1, 0)), ways(12, []));
    let first = "sweep's accept released its escrow";
    assert_eq!(told(&two, sweep(DEADLINE + 1, 1)), ways(0, [closed, first]));
    let all = ways(0, [closed, left, first]);
    assert_eq!(told(&two, sweep(DEADLINE + 1, 2)), all);
    let next = "sweep's accept found its escrow closed";
    assert_eq!(told(&two, sweep(ESCROW, 2)), ways(0, [next, first]));
    let stale = "sweep's accept found its escrow stale";
    assert_eq!(told(&two, sweep(ESCROW + 1, 2)), ways(0, [stale]));
}
