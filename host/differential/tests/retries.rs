//! What is counted of used signers and nonces is what the tables say of them. The second program
//! answers here.

use differential::record::encode;
use differential::retries::decided;
use differential::twin::{lent, World};
use milebeacon::{Envelope, Sizes, Submission, Tables};

const NOW: u64 = 1_000_000_000;
const MINUTE: u64 = 60_000;
const DAY: u64 = 86_400_000;

/// A grant by this signer.
fn grant(signer: u64, nonce: u64, now: u64) -> Submission {
    Submission::grant(Envelope::new(now, signer, nonce).by_admin(), 7, 50)
}

/// A world of so many journal rows in which these grants have settled.
fn after(rows: usize, grants: &[(u64, u64)]) -> World {
    let sizes = Sizes {
        journal: rows,
        ..Sizes::PROGRAM
    };
    let mut world = Tables::zeros(sizes);
    assert_eq!(second::fresh(&mut lent(&mut world)), 0);
    for &(signer, nonce) in grants {
        let record = encode(&grant(signer, nonce, NOW));
        assert_eq!(second::submit(&mut lent(&mut world), &record), (0, 0));
    }
    world
}

/// The answer, and what the submission came to.
fn told(world: &World, submission: Submission) -> (u64, Vec<String>) {
    let record = encode(&submission);
    let (answer, _) = second::submit(&mut lent(&mut world.clone()), &record);
    (answer, decided(world, &record, answer))
}

/// The same of a grant made now.
fn told_of(world: &World, signer: u64, nonce: u64) -> (u64, Vec<String>) {
    told(world, grant(signer, nonce, NOW))
}

fn ways<const N: usize>(answer: u64, ways: [&str; N]) -> (u64, Vec<String>) {
    (answer, ways.map(str::to_owned).to_vec())
}

#[test]
fn the_row_that_refuses_is_named_by_its_place() {
    let three = [(1, 1), (2, 2), (3, 3)];
    for (rows, room) in [(4, "room left"), (3, "no row free")] {
        let world = after(rows, &three);
        let names = ["the oldest row", "a row between", "the newest row"];
        for ((signer, nonce), name) in three.into_iter().zip(names) {
            let way = format!("refused by {name}, {room}");
            assert_eq!(told_of(&world, signer, nonce), ways(11, [&way]));
        }
    }
    for (rows, room) in [(2, "room left"), (1, "no row free")] {
        let world = after(rows, &three[..1]);
        let way = format!("refused by the only row, {room}");
        assert_eq!(told_of(&world, 1, 1), ways(11, [&way]));
    }
}

#[test]
fn of_two_rows_with_signer_and_nonce_neither_decides() {
    let mut world = after(4, &[(1, 1), (2, 2), (3, 3)]);
    world.journal[16..18].copy_from_slice(&[1, 1]);
    assert_eq!(told_of(&world, 1, 1), ways(11, []));
}

#[test]
fn the_row_that_refuses_is_named_by_its_age_and_operation() {
    let world = after(9, &[(1, 1), (2, 2)]);
    let newest = "refused by the newest row, room left";
    let minute = "refused by a row of more than a minute before";
    let day = "refused by a row of more than 24 hours before";
    let told_at = |span: u64| told(&world, grant(2, 2, NOW + span));
    assert_eq!(told_at(MINUTE), ways(11, [newest]));
    assert_eq!(told_at(MINUTE + 1), ways(11, [newest, minute]));
    assert_eq!(told_at(DAY), ways(11, [newest, minute]));
    assert_eq!(told_at(DAY + 1), ways(11, [newest, minute, day]));

    let with = |place: usize, word: u64| {
        let mut world = world.clone();
        world.journal[8 + place] = word;
        told_of(&world, 2, 2)
    };
    let (settled_at, operation) = (5, 2);
    let later = "refused by a row settled after now";
    assert_eq!(with(settled_at, NOW + 1), ways(11, [newest, later]));
    let other = "refused by a row of another operation";
    let none = "refused by a row of no operation that signs";
    for word in [4, 11, 12] {
        assert_eq!(with(operation, word), ways(11, [newest, other]));
    }
    for word in [0, 9, 13, u64::MAX] {
        assert_eq!(with(operation, word), ways(11, [newest, other, none]));
    }
}

#[test]
fn a_row_with_half_of_the_pair_is_passed() {
    let three = after(4, &[(1, 1), (2, 2), (3, 3)]);
    for (number, name) in [(1, "the oldest row"), (3, "the newest row")] {
        let nonce = format!("passed {name}, with the nonce of another signer");
        assert_eq!(told_of(&three, 9, number), ways(0, [&nonce]));
        let signer = format!("passed {name}, with another nonce of the signer");
        assert_eq!(told_of(&three, number, 9), ways(0, [&signer]));
    }
    assert_eq!(told_of(&three, 9, 2), ways(0, []));
    assert_eq!(told_of(&three, 2, 9), ways(0, []));
    let apart = [
        "passed the oldest row, with another nonce of the signer",
        "passed the newest row, with the nonce of another signer",
        "passed two rows, one with the signer and one with the nonce",
    ];
    assert_eq!(told_of(&three, 1, 3), ways(0, apart));
    let one = after(4, &[(1, 1)]);
    let nonce = "passed the only row, with the nonce of another signer";
    assert_eq!(told_of(&one, 9, 1), ways(0, [nonce]));
    let signer = "passed the only row, with another nonce of the signer";
    assert_eq!(told_of(&one, 1, 9), ways(0, [signer]));
    assert_eq!(told_of(&one, 9, 9), ways(0, []));
}

#[test]
fn a_later_check_has_passed_and_an_earlier_one_has_not() {
    let world = after(4, &[(1, 1)]);
    let nonce = "passed the only row, with the nonce of another signer";
    let amount = |amount| Submission {
        amount,
        ..grant(9, 1, NOW)
    };
    assert_eq!(told(&world, amount(0)), ways(12, [nonce]));
    for clock in [NOW - 1, 1 << 48] {
        let answer = if clock < NOW { 4 } else { 3 };
        assert_eq!(told(&world, grant(9, 1, clock)), ways(answer, []));
        assert_eq!(told(&world, grant(1, 1, clock)), ways(answer, []));
    }
}

#[test]
fn an_unwritten_row_is_passed() {
    let mut world = after(4, &[(1, 1)]);
    for (place, signer) in [(1, 5), (2, 6), (3, 7)] {
        world.journal[8 * place..][..2].copy_from_slice(&[signer, 10 * signer]);
    }
    let first = "passed the first unwritten row, with signer and nonce";
    let last = "passed the last row of the table, unwritten, with signer and nonce";
    assert_eq!(told_of(&world, 5, 50), ways(0, [first]));
    assert_eq!(told_of(&world, 6, 60), ways(0, []));
    assert_eq!(told_of(&world, 7, 70), ways(0, [last]));
    // with one row unwritten, that is the first
    world.header[7] = 3;
    assert_eq!(told_of(&world, 7, 70), ways(0, [first]));

    let empty = "passed the first row of an empty journal, with signer and nonce";
    let mut world = after(2, &[]);
    world.journal[..2].copy_from_slice(&[5, 9]);
    assert_eq!(told_of(&world, 5, 9), ways(0, [empty]));
}

#[test]
fn a_sweep_is_not_asked_for_a_nonce() {
    let mut world = after(4, &[(1, 1), (2, 2)]);
    assert_eq!(told(&world, Submission::sweep(NOW, 1)), ways(0, []));
    world.journal[..2].copy_from_slice(&[0, 0]);
    let way = "sweep passed a row with signer 0 and nonce 0";
    assert_eq!(told(&world, Submission::sweep(NOW, 1)), ways(0, [way]));
    assert_eq!(told(&world, Submission::sweep(NOW, 0)), ways(12, [way]));
}
