//! Section "Checked cases", P1 to P12.

mod common;
use common::*;
use second::Submission;

const NOW: u64 = 1_000_000;
const DEADLINE: u64 = NOW + 1_000_000;

fn after_p1() -> World {
    let mut world = World::usual();
    assert_eq!(world.settles(grant(NOW, 1, 7, 50_000_000)), 0);
    world
}

fn p2() -> Submission {
    open(NOW, 7, 1, 8, 20_000_000, DEADLINE)
}

fn after_p2() -> World {
    let mut world = after_p1();
    assert_eq!(world.settles(p2()), 1);
    world
}

#[test]
fn p1_grant() {
    let world = after_p1();
    assert_eq!(world.has(7), (50_000_000, 0));
    assert_eq!(world.header, [1, 0, NOW, 50_000_000, 1, 0, 0, 1]);
    assert_eq!(
        world.wallets[..6],
        [7, 50_000_000, 0, 0, 100_000_000, 1_000_000_000]
    );
    assert_eq!(world.entry(1), [1, 1, 1, 7, 50_000_000, NOW, 0, 0]);
}

#[test]
fn p2_open() {
    let world = after_p2();
    assert_eq!(world.has(7), (30_000_000, 20_000_000));
    assert_eq!(world.has(8), (0, 0));
    assert_eq!(world.escrow(1), [7, 8, 20_000_000, DEADLINE, 1, NOW, 0, 0]);
    assert_eq!(world.entry(2), [7, 1, 3, 8, 20_000_000, NOW, 1, 0]);
}

#[test]
fn p3_the_same_open_again() {
    after_p2().refuses(p2(), 11);
}

#[test]
fn p4_release_at_the_deadline_and_p6_a_second_release() {
    let mut world = after_p2();
    assert_eq!(world.settles(close(4, DEADLINE, 7, 2, 1)), 0);
    assert_eq!(world.has(8), (20_000_000, 0));
    assert_eq!(world.has(7), (30_000_000, 0));
    assert_eq!(
        world.escrow(1),
        [7, 8, 20_000_000, DEADLINE, 2, NOW, DEADLINE, 7]
    );
    world.refuses(close(4, DEADLINE, 7, 3, 1), 29);
}

#[test]
fn p5_release_one_millisecond_later() {
    after_p2().refuses(close(4, DEADLINE + 1, 7, 2, 1), 29);
}

#[test]
fn p7_transfers_out_of_range() {
    let mut world = after_p1();
    world.refuses(transfer(NOW, 7, 2, 8, 0), 12);
    world.refuses(transfer(NOW, 7, 2, 8, MOST), 17);
    world.refuses(transfer(NOW, 7, 2, 8, MOST + 1), 12);
}

#[test]
fn p8_not_yet_valid() {
    let issued = |ahead| Submission {
        issued: NOW + ahead,
        expires: NOW + ahead,
        ..transfer(NOW, 7, 2, 8, 5)
    };
    let mut world = after_p1();
    world.refuses(issued(30_001), 8);
    world.settles(issued(30_000));
}

#[test]
fn p9_window_too_long() {
    let window = |length| Submission {
        expires: NOW + length,
        ..transfer(NOW, 7, 2, 8, 5)
    };
    let mut world = after_p1();
    world.refuses(window(3_600_001), 10);
    world.settles(window(3_600_000));
}

#[test]
fn p10_open_deadlines() {
    let mut world = after_p1();
    world.refuses(open(NOW, 7, 2, 8, 5, NOW), 20);
    world.refuses(open(NOW, 7, 2, 8, 5, NOW + 604_800_001), 21);
    world.settles(open(NOW, 7, 2, 8, 5, NOW + 1));
    world.settles(open(NOW, 7, 3, 8, 5, NOW + 604_800_000));
}

#[test]
fn p11_two_claims_on_one_escrow() {
    let mut world = after_p2();
    let until = NOW + 300_000;
    assert_eq!(world.settles(claim(NOW, 8, 1, 7, until, 1)), 1);
    assert_eq!(world.settles(claim(NOW, 8, 2, 7, until, 1)), 2);
    assert_eq!(world.settles(accept(NOW + 1, 7, 2, 1)), 1);
    assert_eq!(world.has(8), (20_000_000, 0));
    assert_eq!(world.settles(accept(NOW + 2, 7, 3, 2)), 0);
    assert_eq!(world.has(8), (20_000_000, 0));
    let hash = [11, 12, 13, 14];
    let first = [8, 7, 1, until, 0, 2, NOW, NOW + 1, 7, 0];
    let second = [8, 7, 1, until, 0, 2, NOW, NOW + 2, 7, 29];
    assert_eq!(world.receipt(1), [&first[..], &hash].concat());
    assert_eq!(world.receipt(2), [&second[..], &hash].concat());
    assert_eq!(
        world.escrow(1),
        [7, 8, 20_000_000, DEADLINE, 2, NOW, NOW + 1, 7]
    );
    assert_eq!(world.entry(3), [8, 1, 6, 7, 0, NOW, 1, 1]);
    assert_eq!(world.entry(5), [7, 2, 7, 1, 0, NOW + 1, 1, 0]);
}

#[test]
fn p12_two_due_escrows_limit_one() {
    let mut world = after_p2();
    world.settles(open(NOW, 7, 2, 8, 1_000, DEADLINE - 1));
    let journal = world.journal.clone();
    let later = DEADLINE + 1;
    assert_eq!(world.settles(sweep(later, 1)), 1);
    assert_eq!(world.has(7), (49_999_000, 1_000));
    assert_eq!(world.settles(sweep(later, 1)), 1);
    assert_eq!(world.has(7), (50_000_000, 0));
    assert_eq!(world.settles(sweep(later, 1)), 0);
    assert_eq!(
        world.escrow(1),
        [7, 8, 20_000_000, DEADLINE, 4, NOW, later, 0]
    );
    assert_eq!(world.journal, journal);
    assert_eq!(world.header[7], 3);
    assert_eq!(world.header[2], later);
}
