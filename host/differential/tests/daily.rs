//! What is counted of payments at the daily cap is what the rules say of them. The second program
//! answers here.

use differential::daily::decided;
use differential::record::encode;
use differential::twin::{lent, World};
use milebeacon::{Envelope, EscrowNumber, Sizes, Submission, Tables};

const NOW: u64 = 1_000_000_000;
const DEADLINE: u64 = NOW + 1_000;
const DAY: u64 = 86_400_000;

fn by(signer: u64, now: u64, nonce: u64) -> Envelope {
    Envelope::new(now, signer, nonce)
}

fn transfer(now: u64, amount: u64) -> Submission {
    Submission::transfer(by(7, now, 99), 8, amount)
}

fn open(now: u64, amount: u64) -> Submission {
    Submission::open(by(7, now, 99), 8, amount, now + 1)
}

fn settle(world: &mut World, submission: Submission) {
    let answer = second::submit(&mut lent(world), &encode(&submission));
    assert_eq!(answer.0, 0, "{submission:?}");
}

/// A world in which 7 may pay 1,000 a day and has made one payment, of 600.
fn after(payment: Submission) -> World {
    let mut world = Tables::zeros(Sizes::PROGRAM);
    assert_eq!(second::fresh(&mut lent(&mut world)), 0);
    let admin = |nonce| by(1, NOW, nonce).by_admin();
    settle(&mut world, Submission::grant(admin(1), 7, 50_000));
    settle(&mut world, Submission::caps(admin(2), 7, 50_000, 1_000));
    settle(&mut world, payment);
    world
}

fn after_a_hold() -> World {
    after(Submission::open(by(7, NOW, 1), 8, 600, DEADLINE))
}

/// What the submission came to, one line each.
fn told(world: &World, submission: Submission) -> String {
    let record = encode(&submission);
    let (answer, _) = second::submit(&mut lent(&mut world.clone()), &record);
    decided(world, &record, answer).join("\n")
}

#[test]
fn a_hold_decides_at_the_end_of_its_24_hours() {
    let world = after_a_hold();
    let refused = "refused by a hold of 86,400,000 ms before";
    let settled = "settled after a hold of 86,400,001 ms before";
    for amount in [401, 1_000] {
        let (last, gone) = (NOW + DAY, NOW + DAY + 1);
        let transfers = [last, gone].map(|now| told(&world, transfer(now, amount)));
        assert_eq!(
            transfers,
            [refused, settled].map(|s| format!("transfer {s}"))
        );
        let opens = [last, gone].map(|now| told(&world, open(now, amount)));
        assert_eq!(opens, [refused, settled].map(|s| format!("open {s}")));
    }
}

#[test]
fn it_decides_nothing_before_and_after_or_where_it_makes_no_difference() {
    let world = after_a_hold();
    for clock in [NOW, NOW + DAY - 1, NOW + DAY + 2] {
        assert_eq!(told(&world, transfer(clock, 401)), "");
        assert_eq!(told(&world, open(clock, 401)), "");
    }
    for clock in [NOW + DAY, NOW + DAY + 1] {
        for amount in [400, 1_001] {
            assert_eq!(told(&world, transfer(clock, amount)), "");
            assert_eq!(told(&world, open(clock, amount)), "");
        }
        let grant = Submission::grant(by(7, clock, 99).by_admin(), 8, 401);
        assert_eq!(told(&world, grant), "");
    }
}

#[test]
fn a_transfer_is_no_hold() {
    let world = after(Submission::transfer(by(7, NOW, 1), 8, 600));
    for clock in [NOW, NOW + DAY, NOW + DAY + 1] {
        assert_eq!(told(&world, transfer(clock, 401)), "");
        assert_eq!(told(&world, open(clock, 401)), "");
    }
}

#[test]
fn a_hold_that_has_ended_decides_too() {
    let ends = [
        (
            "released",
            Submission::release(by(7, NOW, 2), EscrowNumber(1)),
        ),
        (
            "refunded",
            Submission::refund(by(7, NOW, 2), EscrowNumber(1)),
        ),
        ("expired", Submission::sweep(DEADLINE + 1, 1)),
    ];
    for (state, end) in ends {
        let mut world = after_a_hold();
        settle(&mut world, end);
        let ended = format!("payment refused by a hold now {state}");
        let now = DEADLINE + 1;
        assert_eq!(told(&world, transfer(now, 401)), ended);
        assert_eq!(told(&world, open(now, 401)), ended);
        assert_eq!(told(&world, transfer(now, 400)), "");
        assert_eq!(told(&world, transfer(now, 1_001)), "");
        assert_eq!(told(&world, transfer(NOW + DAY + 2, 401)), "");
    }
}
