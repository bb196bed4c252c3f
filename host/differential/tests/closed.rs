//! What is counted of records that name a closed wallet is what the tables say of them.

mod common;

use common::{admin, answer, by, full, ledger, ways, CLOSED, FROZEN, LIVE, NOW, OPEN};
use differential::closed::{decided, none, NEVER};
use differential::record::encode;
use differential::twin::World;
use milebeacon::{Claim, EscrowNumber, Freezable, Submission};

const LATER: u64 = NOW + 400_000;

/// 20 is closed with 300, 21 with 600, 22 with nothing. 7 and 8 are live, 11 is frozen.
fn world() -> World {
    let wallets = [
        (7, 600, LIVE),
        (8, 0, LIVE),
        (11, 600, FROZEN),
        (20, 300, CLOSED),
        (21, 600, CLOSED),
        (22, 0, CLOSED),
    ];
    ledger(
        &wallets,
        &[(7, 21, 10, LATER, OPEN), (21, 8, 10, LATER, OPEN)],
    )
}

fn told_on(world: &World, submission: Submission) -> (u64, Vec<String>) {
    let answer = answer(world, submission);
    (answer, decided(world, &encode(&submission), answer))
}

fn told(submission: Submission) -> (u64, Vec<String>) {
    told_on(&world(), submission)
}

fn claim(signer: u64, requester: u64, until: u64, escrow: u64) -> Submission {
    let claim = Claim {
        requester,
        until,
        escrow: Some(EscrowNumber(escrow)).filter(|number| number.0 != 0),
        hash: [0; 32],
        auto_accept: false,
    };
    Submission::claim(by(signer), claim)
}

#[test]
fn a_grant_is_told_by_what_43_stands_before() {
    let name = |rest: &str| format!("grant to a closed wallet: {rest}");
    let grant = |amount| Submission::grant(admin(1), 22, amount);
    assert_eq!(told(grant(5)), ways(43, [&name("43 alone")]));
    assert_eq!(told(grant(0)), ways(12, [&name("12")]));
    let unsigned = Submission {
        flags: 0b10,
        ..grant(0)
    };
    assert_eq!(told(unsigned), ways(6, [&name("4 to 11")]));
    let no_room = full(world(), 7);
    let way = name("43 and not 40");
    assert_eq!(told_on(&no_room, grant(5)), ways(43, [&way]));

    let mut rich = world();
    let left = 1_000_000_000_000_000_000 - rich.header[3];
    rich.header[3] += left;
    rich.wallets[1] += left;
    let way = name("43 and not 36");
    assert_eq!(told_on(&rich, grant(1)), ways(43, [&way]));
    assert_eq!(
        told_on(&rich, Submission::grant(admin(1), 8, 1)),
        ways(36, [])
    );
}

#[test]
fn a_payment_is_told_by_its_sides() {
    let pays = |from, to, amount| Submission::transfer(by(from), to, amount);
    let one = |answer, way: &str| ways(answer, [&format!("transfer {way}")]);
    assert_eq!(
        told(pays(20, 8, 5)),
        one(43, "by a closed wallet: 43 alone")
    );
    assert_eq!(
        told(pays(7, 20, 5)),
        one(43, "to a closed wallet: 43 alone")
    );
    let both = "between closed wallets: 43 alone";
    assert_eq!(told(pays(20, 21, 5)), one(43, both));
    let itself = "by a closed wallet to itself: 15";
    assert_eq!(told(pays(20, 20, 5)), one(15, itself));
    assert_eq!(told(pays(20, 0, 5)), one(15, "by a closed wallet: 15"));
    assert_eq!(told(pays(20, 8, 0)), one(12, "by a closed wallet: 12"));
    assert_eq!(told(pays(99, 20, 5)), one(13, "to a closed wallet: 13"));
    assert_eq!(told(pays(11, 20, 5)), one(14, "to a closed wallet: 14"));
    assert_eq!(told(pays(7, 8, 5)), ways(0, []));
    assert_eq!(told(pays(7, 8, 601)), ways(17, []));
}

#[test]
fn a_payment_is_told_by_the_first_check_behind_43() {
    let pays = |from, to, amount| Submission::transfer(by(from), to, amount);
    let and_not = |side: &str, number: u64| {
        let way = format!("transfer {side} a closed wallet: 43 and not {number}");
        ways(43, [&way])
    };
    assert_eq!(told(pays(20, 8, 301)), and_not("by", 17));
    assert_eq!(told(pays(20, 8, 601)), and_not("by", 17));
    assert_eq!(told(pays(21, 8, 501)), and_not("by", 18));
    assert_eq!(told(pays(7, 21, 501)), and_not("to", 18));
    let mut world = world();
    for (row, signer) in [(0, 7), (1, 21)] {
        let entry = [signer, 1, 2, 8, 400, NOW, 0, 0];
        world.journal[row * 8..][..8].copy_from_slice(&entry);
    }
    world.journal.extend([0; 8]);
    world.header[7] = 2;
    assert_eq!(told_on(&world, pays(21, 8, 401)), and_not("by", 19));
    assert_eq!(told_on(&world, pays(7, 21, 401)), and_not("to", 19));
    let no_room = full(world, 4);
    assert_eq!(told_on(&no_room, pays(21, 99, 5)), and_not("by", 37));
    assert_eq!(told_on(&no_room, pays(21, 99, 401)), and_not("by", 19));
    assert_eq!(
        told_on(&full(no_room, 7), pays(21, 8, 5)),
        and_not("by", 40)
    );
}

#[test]
fn an_open_has_its_deadline_and_its_room_too() {
    let opens = |from, to, until| Submission::open(by(from), to, 5, until);
    let one = |side: &str, rest: &str| ways(43, [&format!("open {side} a closed wallet: {rest}")]);
    let last = NOW + 604_800_000;
    for (side, from, to) in [("by", 21, 8), ("to", 7, 21)] {
        assert_eq!(told(opens(from, to, last)), one(side, "43 alone"));
        assert_eq!(told(opens(from, to, NOW)), one(side, "43 and not 20"));
        assert_eq!(told(opens(from, to, last + 1)), one(side, "43 and not 21"));
        let no_room = full(world(), 5);
        assert_eq!(
            told_on(&no_room, opens(from, to, last)),
            one(side, "43 and not 38")
        );
    }
}

#[test]
fn a_claim_is_told_by_its_parties_its_window_and_its_escrow() {
    let one = |side: &str, rest: &str| ways(43, [&format!("claim {side} a closed wallet: {rest}")]);
    let until = NOW + 300_000;
    assert_eq!(told(claim(21, 8, until, 0)), one("by", "43 alone"));
    assert_eq!(told(claim(8, 21, until, 0)), one("to", "43 alone"));
    assert_eq!(told(claim(21, 99, until, 0)), one("by", "43 and not 23"));
    assert_eq!(told(claim(99, 21, until, 0)), one("to", "43 and not 22"));
    assert_eq!(told(claim(21, 8, until - 1, 0)), one("by", "43 and not 24"));
    let long = NOW + 604_800_000;
    assert_eq!(told(claim(21, 8, long, 0)), one("by", "43 alone"));
    assert_eq!(told(claim(21, 8, long + 1, 0)), one("by", "43 and not 25"));
    let old = Submission {
        issued: NOW - 300_001,
        ..claim(8, 21, NOW - 1, 0)
    };
    assert_eq!(told(old), one("to", "43 and not 26"));
    // 1 is from 7 to 21, and 2 from 21 to 8
    assert_eq!(told(claim(21, 7, LATER, 1)), one("by", "43 alone"));
    assert_eq!(told(claim(8, 21, LATER, 2)), one("to", "43 alone"));
    assert_eq!(told(claim(21, 7, LATER + 1, 1)), one("by", "43 and not 31"));
    assert_eq!(told(claim(21, 8, LATER, 1)), one("by", "43 and not 30"));
    assert_eq!(told(claim(21, 7, LATER, 3)), one("by", "43 and not 27"));
    let mut ended = world();
    ended.escrows[4] = 2;
    ended.wallets[2] = 0;
    ended.wallets[1] += 10;
    assert_eq!(
        told_on(&ended, claim(21, 7, LATER, 1)),
        one("by", "43 and not 29")
    );
    let no_room = full(world(), 6);
    let told_full = told_on(&no_room, claim(21, 7, LATER, 1));
    assert_eq!(told_full, one("by", "43 and not 39"));
    let itself = "claim by a closed wallet to itself: 15";
    assert_eq!(told(claim(21, 21, until, 0)), ways(15, [itself]));
}

#[test]
fn a_freeze_a_thaw_caps_and_a_close_are_told_of_their_target() {
    let freezes = |frozen| Submission::freeze(admin(1), Freezable::Wallet(22), frozen);
    let cases = [
        ("freeze", freezes(true)),
        ("thaw", freezes(false)),
        ("caps", Submission::caps(admin(1), 22, 1, 1)),
        ("close", Submission::close(admin(1), 22)),
    ];
    for (name, submission) in cases {
        let way = format!("{name} of a closed wallet: 43 alone");
        assert_eq!(told(submission), ways(43, [&way]));
        let no_admin = Submission {
            flags: submission.flags & !0b10,
            ..submission
        };
        let way = format!("{name} of a closed wallet: 4 to 11");
        assert_eq!(told(no_admin), ways(7, [&way]));
        let way = format!("{name} of a closed wallet: 43 and not 40");
        assert_eq!(told_on(&full(world(), 7), submission), ways(43, [&way]));
    }
    let too_much = Submission::caps(admin(1), 22, u64::MAX, 1);
    assert_eq!(told(too_much), ways(12, ["caps of a closed wallet: 12"]));
    for closed in [20, 21] {
        let close = Submission::close(admin(1), closed);
        let way = "close of a closed wallet: 43 and not 42";
        assert_eq!(told(close), ways(43, [way]));
    }
}

#[test]
fn a_signer_that_43_does_not_name_is_not_told() {
    assert_eq!(told(Submission::grant(admin(20), 8, 5)), ways(0, []));
    assert_eq!(told(Submission::close(admin(20), 99)), ways(16, []));
    assert_eq!(told(Submission::caps(admin(20), 8, 1, 1)), ways(0, []));
    assert_eq!(
        told(Submission::release(by(21), EscrowNumber(2))),
        ways(0, [])
    );
}

#[test]
fn any_other_answer_must_not_be() {
    let record = encode(&Submission::grant(admin(1), 22, 5));
    for answer in [0, 17, 36, 40, 42] {
        assert_eq!(decided(&world(), &record, answer), [NEVER]);
    }
    for answer in [1, 2, 3] {
        assert_eq!(decided(&world(), &record, answer), [""; 0]);
    }
}

#[test]
fn what_is_told_is_what_a_run_must_come_to() {
    let mut reached = none();
    let before = reached.missing().len();
    reached.count(told(Submission::grant(admin(1), 22, 5)).1);
    reached.count(told(Submission::grant(admin(1), 8, 5)).1);
    assert_eq!(reached.missing().len(), before - 1);
}
