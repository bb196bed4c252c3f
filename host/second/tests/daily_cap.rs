//! Refusal 19 as request 2/13 changed it: holds count as transfers do.

mod common;
use common::*;
use second::Submission;

const NOW: u64 = 1_000_000;
const DEADLINE: u64 = NOW + 1_000_000;
const DAY: u64 = 86_400_000;

/// 7 has 50,000, of which it may pay 1,000 a day, and has paid nothing yet.
fn before() -> World {
    let mut world = World::usual();
    world.settles(grant(NOW, 1, 7, 50_000));
    world.settles(caps(NOW, 2, 7, MOST, 1_000));
    world
}

/// Then 7 opens a hold of 600 for 8: journal row 3, escrow 1.
fn after_a_hold() -> World {
    let mut world = before();
    world.settles(open(NOW, 7, 1, 8, 600, DEADLINE));
    world
}

/// At `now`, 7 may pay `left` and no more, by a transfer and by a hold.
#[track_caller]
fn has_left(world: &World, now: u64, left: u64) {
    for (amount, number) in [(left, 0), (left + 1, 19)] {
        for payment in [
            transfer(now, 7, 99, 8, amount),
            open(now, 7, 99, 8, amount, now + 1),
        ] {
            let mut world = world.clone();
            if number == 0 {
                world.settles(payment);
            } else {
                world.refuses(payment, number);
            }
        }
    }
}

#[test]
fn the_first_hold_of_a_day_may_be_the_whole_cap() {
    has_left(&before(), NOW, 1_000);
}

#[test]
fn a_hold_counts_for_24_hours() {
    let world = after_a_hold();
    has_left(&world, NOW, 400);
    has_left(&world, NOW + DAY - 1, 400);
    has_left(&world, NOW + DAY, 400);
    has_left(&world, NOW + DAY + 1, 1_000);
}

#[test]
fn a_transfer_counts_for_24_hours() {
    let mut world = before();
    world.settles(transfer(NOW, 7, 1, 8, 600));
    has_left(&world, NOW, 400);
    has_left(&world, NOW + DAY, 400);
    has_left(&world, NOW + DAY + 1, 1_000);
}

#[test]
fn holds_and_transfers_add_up_and_each_leaves_on_its_own() {
    let mut world = after_a_hold();
    world.settles(transfer(NOW + 1, 7, 2, 8, 100));
    world.settles(open(NOW + 2, 7, 3, 9, 50, DEADLINE));
    has_left(&world, NOW + DAY, 250);
    has_left(&world, NOW + DAY + 1, 850);
    has_left(&world, NOW + DAY + 2, 950);
    has_left(&world, NOW + DAY + 3, 1_000);
}

#[test]
fn a_cap_below_what_was_held_leaves_nothing() {
    let mut world = after_a_hold();
    world.settles(caps(NOW, 3, 7, MOST, 599));
    world.refuses(transfer(NOW + DAY, 7, 2, 8, 1), 19);
    world.refuses(open(NOW + DAY, 7, 2, 8, 1, NOW + DAY + 1), 19);
    has_left(&world, NOW + DAY + 1, 599);
}

/// "A later refund does not give room back", nor does any other end of a hold.
#[test]
fn no_end_of_a_hold_gives_room_back() {
    let claimed = NOW + 300_000;
    let ends: [(u64, &[Submission]); 5] = [
        (3, &[close(5, NOW + 1, 7, 2, 1)]),
        (2, &[close(4, NOW + 1, 7, 2, 1)]),
        (2, &[claim(NOW, 8, 1, 7, claimed, 1), accept(NOW, 7, 2, 1)]),
        (
            2,
            &[auto(claim(NOW, 8, 1, 7, claimed, 1)), sweep(claimed + 1, 1)],
        ),
        (4, &[sweep(DEADLINE + 1, 1)]),
    ];
    for (state, submissions) in ends {
        let mut world = after_a_hold();
        for &submission in submissions {
            world.settles(submission);
        }
        assert_eq!(world.escrow(1)[4], state);
        has_left(&world, DEADLINE + 1, 400);
        has_left(&world, NOW + DAY, 400);
        has_left(&world, NOW + DAY + 1, 1_000);
    }
}

#[test]
fn holds_of_others_do_not_count() {
    let mut world = after_a_hold();
    world.settles(grant(NOW, 3, 8, 5_000));
    // 8 holds for 7, and releases one of the two to it.
    world.settles(open(NOW, 8, 1, 7, 300, DEADLINE));
    world.settles(open(NOW, 8, 2, 7, 200, DEADLINE));
    world.settles(close(4, NOW, 8, 3, 2));
    has_left(&world, NOW, 400);
}

#[test]
fn other_operations_of_the_signer_do_not_count() {
    let by_7 = |s: Submission| Submission { signer: 7, ..s };
    let mut world = after_a_hold();
    world.settles(by_7(grant(NOW, 11, 8, 500)));
    world.settles(by_7(caps(NOW, 12, 8, 300, 200)));
    has_left(&world, NOW, 400);
    // A lent journal may hold any operation, with an amount to it.
    for operation in [0, 1, 4, 5, 6, 7, 8, 9, 10, 11, 12, 258, 259, u64::MAX] {
        let mut world = after_a_hold();
        assert_eq!(world.entry(3)[..5], [7, 1, 3, 8, 600]);
        world.journal[18] = operation;
        assert!(world.sound());
        has_left(&world, NOW, 1_000);
    }
}

#[test]
fn the_journal_decides_and_not_the_escrows() {
    // The row without its escrow counts,
    let mut world = after_a_hold();
    world.header[5] = 0;
    world.wallets[1..3].copy_from_slice(&[50_000, 0]);
    assert!(world.sound());
    has_left(&world, NOW, 400);
    // whatever escrow its answer word names,
    let mut world = after_a_hold();
    world.journal[22] = u64::MAX;
    has_left(&world, NOW, 400);
    // and by its own amount and time,
    let mut world = after_a_hold();
    world.journal[20..22].copy_from_slice(&[700, NOW + 5]);
    has_left(&world, NOW + DAY + 5, 300);
    has_left(&world, NOW + DAY + 6, 1_000);
    // and the escrow without its row does not.
    let mut world = after_a_hold();
    world.header[7] = 2;
    assert!(world.sound());
    has_left(&world, NOW, 1_000);
}
