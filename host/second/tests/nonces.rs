//! Refusal 11: which row of the journal has signer and nonce makes no difference, and request 4/13
//! changes nothing in it.

mod common;
use common::*;
use second::Submission;

const NOW: u64 = 1_000_000;
const DAY: u64 = 86_400_000;

/// A grant by this signer.
fn by(signer: u64, nonce: u64, now: u64) -> Submission {
    Submission {
        signer,
        ..grant(now, nonce, 7, 1)
    }
}

/// A ledger with this room in its journal, and the rows 1 to `written` by the signers 11, 12 and so
/// on with the nonces 21, 22 and so on.
fn journal(room: usize, written: u64) -> World {
    let mut world = World::new(2, 1, 1, room);
    for row in 1..=written {
        world.settles(by(10 + row, 20 + row, NOW));
    }
    world
}

#[test]
fn every_written_row_is_seen() {
    for written in 1..=6 {
        for room in [written, written + 1, written + 9] {
            let mut world = journal(room as usize, written);
            for row in 1..=written {
                world.refuses(by(10 + row, 20 + row, NOW), 11);
            }
        }
    }
}

#[test]
fn it_is_seen_at_any_time_and_for_any_operation() {
    for row in 1..=4 {
        let (signer, nonce) = (10 + row, 20 + row);
        let mut world = journal(9, 4);
        for span in [0, 60_000, 60_001, DAY, DAY + 1, TIME - 60_000 - NOW] {
            world.refuses(by(signer, nonce, NOW + span), 11);
        }
        world.refuses(transfer(NOW, signer, nonce, 8, 1), 11);
        world.refuses(accept(NOW, signer, nonce, 1), 11);
        let place = 8 * (row as usize - 1);
        for operation in [0, 9, 12, u64::MAX] {
            world.journal[place + 2] = operation;
            world.refuses(by(signer, nonce, NOW), 11);
        }
        world.journal[place + 5] = NOW + DAY;
        world.refuses(by(signer, nonce, NOW), 11);
    }
}

#[test]
fn half_of_a_row_is_not_enough() {
    for row in 1..=4 {
        for other in (1..=5).filter(|&other| other != row) {
            journal(9, 4).settles(by(10 + row, 20 + other, NOW));
            // on a full journal a later check refuses
            journal(4, 4).refuses(by(10 + row, 20 + other, NOW), 40);
        }
        journal(9, 4).settles(by(9, 20 + row, NOW));
    }
}

#[test]
fn what_stands_in_two_rows_is_seen() {
    let mut world = journal(9, 4);
    world.journal[24..26].copy_from_slice(&[11, 21]);
    world.refuses(by(11, 21, NOW), 11);
    world.settles(by(14, 24, NOW));
}

#[test]
fn an_unwritten_row_is_not_seen() {
    // a fresh start on tables in use leaves the words of all rows
    for row in 1..=4 {
        let mut world = journal(4, 4);
        assert_eq!(second::fresh(&mut world.tables()), 0);
        world.settles(by(10 + row, 20 + row, NOW));
        world.refuses(by(10 + row, 20 + row, NOW), 11);
    }
    let mut world = journal(9, 4);
    world.header[7] = 3;
    world.settles(by(14, 24, NOW));
}
