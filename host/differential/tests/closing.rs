//! What is counted of closes, of closed wallets and of lookups is what the tables say of them.

mod common;

use common::{admin, after, by, full, ledger, ways};
use common::{Escrow, CLOSED, ENDED, FROZEN, LIVE, NOW, OPEN};
use differential::dice::Dice;
use differential::record::encode;
use differential::tally::Tally;
use differential::twin::{Began, World};
use differential::{closing, departed, lookups};
use milebeacon::{EscrowNumber, ReceiptNumber, Submission};

const LATER: u64 = NOW + 400_000;

/// The answer, and what a close of this wallet by 1 came to.
fn closes(world: &World, wallet: u64) -> (u64, Vec<String>) {
    let close = Submission::close(admin(1), wallet);
    let (answer, _) = after(world, close);
    let began = Began::Lent;
    (
        answer,
        closing::decided(world, &encode(&close), answer, began),
    )
}

/// 8's wallet with this balance, and these escrows; 7 has balance, 20 is closed.
fn with(balance: u64, escrows: &[Escrow]) -> World {
    let wallets = [(7, 50, LIVE), (8, balance, LIVE), (20, 0, CLOSED)];
    ledger(&wallets, escrows)
}

#[test]
fn a_close_is_refused_by_what_is_left() {
    let by = |what: &str| format!("close answered 42 by {what}");
    let balance = by("balance alone");
    assert_eq!(closes(&with(2, &[]), 8), ways(42, [&balance]));
    let one = by("a balance of 1 alone");
    assert_eq!(closes(&with(1, &[]), 8), ways(42, [&balance, &one]));
    let locked = by("locked credits alone");
    let from = |amount, until| (8, 7, amount, until, OPEN);
    assert_eq!(closes(&with(0, &[from(2, LATER)]), 8), ways(42, [&locked]));
    let one = by("1 locked credit alone");
    let held = closes(&with(0, &[from(1, NOW - 1)]), 8);
    assert_eq!(held, ways(42, [&locked, &one]));
    let to = |from, until| (from, 8, 2, until, OPEN);
    let in_time = by("an escrow in time alone");
    assert_eq!(closes(&with(0, &[to(7, NOW)]), 8), ways(42, [&in_time]));
    let stale = by("a stale escrow alone");
    assert_eq!(closes(&with(0, &[to(7, NOW - 1)]), 8), ways(42, [&stale]));
    let closed = by("an escrow from a closed wallet alone");
    let of_closed = closes(&with(0, &[to(20, LATER)]), 8);
    assert_eq!(of_closed, ways(42, [&in_time, &closed]));

    let all = [from(2, LATER), to(7, LATER)];
    for (balance, escrows, what) in [
        (1, &all[..1], "balance and locked credits"),
        (1, &all[1..], "balance and an escrow"),
        (0, &all[..], "locked credits and an escrow"),
        (1, &all[..], "all three"),
    ] {
        assert_eq!(closes(&with(balance, escrows), 8), ways(42, [&by(what)]));
    }
}

#[test]
fn a_close_is_refused_for_it_whatever_else_holds() {
    let mut world = full(with(2, &[]), 7);
    world.header[1] = 1;
    world.wallets[6 + 3] = FROZEN;
    let told = closes(&world, 8);
    let all = [
        "of a frozen wallet",
        "on a frozen system",
        "on a full journal",
    ];
    let [frozen, system, journal] = all.map(|what| format!("close answered 42, {what}"));
    let balance = "close answered 42 by balance alone";
    assert_eq!(told, ways(42, [balance, &frozen, &system, &journal]));
    let nobody = "close of wallet 0 answered 16";
    assert_eq!(closes(&world, 0), ways(16, [nobody]));
    assert_eq!(closes(&world, 99), ways(16, []));
    assert_eq!(closes(&world, 20), ways(43, []));
}

#[test]
fn a_close_that_settles_is_told_by_what_does_not_keep_it() {
    let settled = |what: &str| format!("close settled, {what}");
    let plain = [
        settled("on a lent ledger"),
        settled("by a signer without a wallet"),
    ];
    let [lent, stranger] = &plain;
    let told = closes(&with(0, &[]), 8);
    assert_eq!(told, ways(0, [lent, stranger]));
    let others = settled("beside open escrows of others");
    let told = closes(&with(0, &[(7, 20, 2, LATER, OPEN)]), 8);
    assert_eq!(told, ways(0, [lent, stranger, &others]));
    let ended = [(7, 8, 2, LATER, ENDED), (8, 7, 2, LATER, ENDED)];
    let [to, from] =
        ["to", "from"].map(|way| settled(&format!("with an escrow {way} it that has ended")));
    let told = closes(&with(0, &ended), 8);
    assert_eq!(told, ways(0, [lent, stranger, &to, &from]));

    let mut world = with(0, &[]);
    world.header[1] = 1;
    world.header[6] = 2;
    world.wallets[6 + 3] = FROZEN;
    world.receipts[..6].copy_from_slice(&[8, 7, 0, LATER, 0, 1]);
    world.receipts[14..][..6].copy_from_slice(&[7, 8, 0, LATER, 0, 1]);
    let all = [
        "on a lent ledger",
        "on a frozen system",
        "of a frozen wallet",
        "by a signer without a wallet",
        "with a pending receipt that it provided",
        "with a pending receipt that it requested",
    ];
    let all = all.map(settled);
    assert_eq!(closes(&world, 8), (0, all.to_vec()));
}

#[test]
fn a_close_that_settles_is_told_by_its_row_and_its_signer() {
    let told = |wallets: &[common::Wallet], signer: u64, wallet: u64| {
        let world = ledger(wallets, &[]);
        let close = Submission::close(admin(signer), wallet);
        let (answer, _) = after(&world, close);
        assert_eq!(answer, 0);
        closing::decided(&world, &encode(&close), 0, Began::Afresh)
    };
    let fresh = "close settled, on a ledger begun afresh";
    let stranger = "close settled, by a signer without a wallet";
    let first = "close settled, of the first wallet of several";
    let last = "close settled, of the last wallet of several";
    let own = "close settled, of the signer's own wallet";
    let frozen = "close settled, by a signer whose wallet is frozen";
    let three = [(7, 0, LIVE), (8, 0, LIVE), (9, 0, FROZEN)];
    assert_eq!(told(&three, 1, 7), [fresh, first, stranger]);
    assert_eq!(told(&three, 1, 8), [fresh, stranger]);
    assert_eq!(told(&three, 8, 8), [fresh, own]);
    assert_eq!(told(&three, 9, 8), [fresh, frozen]);
    assert_eq!(told(&three[..2], 7, 8), [fresh, last]);
    assert_eq!(told(&three[..1], 1, 7), [fresh, stranger]);
}

/// The answer, and what a submission came to with closed wallets.
fn takes_part(world: &World, submission: Submission) -> (u64, Vec<String>) {
    let (answer, after) = after(world, submission);
    let record = encode(&submission);
    let told = departed::decided(world, &after, &record, answer, Began::Lent);
    (answer, told)
}

#[test]
fn what_a_closed_wallet_signs_is_told() {
    let mut world = with(0, &[(7, 8, 2, LATER, OPEN)]);
    world.header[6] = 1;
    world.receipts[..6].copy_from_slice(&[8, 20, 0, LATER, 0, 1]);
    let signed = |what: &str| {
        let way = format!("{what} settled, signed by a closed wallet");
        ways(0, [&way])
    };
    let grant = Submission::grant(admin(20), 8, 5);
    assert_eq!(takes_part(&world, grant), signed("grant"));
    let release = Submission::release(admin(20), EscrowNumber(1));
    assert_eq!(takes_part(&world, release), signed("release"));
    let caps = Submission::caps(admin(20), 8, 1, 1);
    assert_eq!(takes_part(&world, caps), signed("caps"));
    let (answer, mut told) = takes_part(&world, Submission::accept(by(20), ReceiptNumber(1)));
    let reply = told.pop();
    assert_eq!((answer, told), signed("accept"));
    let way = "reply settled, signed by a closed wallet, on a lent ledger";
    assert_eq!(reply, Some(way.to_owned()));
    assert_eq!(
        takes_part(&world, Submission::grant(admin(7), 8, 5)),
        ways(0, [])
    );
    let refused = Submission::transfer(by(20), 8, 5);
    assert_eq!(takes_part(&world, refused), ways(43, []));
}

#[test]
fn what_becomes_of_a_closed_wallets_escrows_is_told() {
    let ways_of = |who: &str, to: &str, from: &str| {
        let ended = |party: &str, state: &str| {
            format!("{who}: an escrow {party} a closed wallet was {state}")
        };
        let all = [(from, "from"), (to, "to")];
        let all = all.into_iter().filter(|(state, _)| !state.is_empty());
        (
            0,
            all.map(|(state, party)| ended(party, state))
                .collect::<Vec<_>>(),
        )
    };
    let escrows = [(7, 20, 2, LATER, OPEN), (20, 7, 2, LATER, OPEN)];
    let mut world = with(0, &escrows);
    world.header[6] = 1;
    world.receipts[..6].copy_from_slice(&[20, 7, 1, LATER, 1, 1]);
    let [one, two] = [1, 2].map(EscrowNumber);
    let release =
        |number| Submission::release(by(if number == one { 7 } else { 20 }).by_admin(), number);
    assert_eq!(
        takes_part(&world, release(one)),
        ways_of("release", "released", "")
    );
    let refund = Submission::refund(admin(7), two);
    assert_eq!(
        takes_part(&world, refund),
        ways_of("refund", "", "refunded")
    );
    let accept = Submission::accept(by(7), ReceiptNumber(1));
    assert_eq!(
        takes_part(&world, accept),
        ways_of("accept", "released", "")
    );
    let late = Submission::sweep(LATER + 1, 9);
    assert_eq!(
        takes_part(&world, late),
        ways_of("sweep", "expired", "expired")
    );
    world.receipts[3] = NOW - 1;
    let sweep = Submission::sweep(NOW, 9);
    assert_eq!(takes_part(&world, sweep), ways_of("sweep", "released", ""));
}

#[test]
fn numbers_and_rows_beside_closed_wallets_are_told() {
    let wallets = [(7, 50, LIVE), (1, 0, CLOSED)];
    let world = ledger(&wallets, &[(7, 1, 2, LATER, OPEN)]);
    let number = "refund settled, its number a closed wallet's id";
    let ended = "refund: an escrow to a closed wallet was refunded";
    let refund = Submission::refund(by(7), EscrowNumber(1));
    assert_eq!(takes_part(&world, refund), ways(0, [number, ended]));
    let made = "wallet made beside a closed one";
    let grant = Submission::grant(admin(7), 99, 5);
    assert_eq!(takes_part(&world, grant), ways(0, [made]));
    let no_room = "payment answered 37 beside a closed wallet";
    assert_eq!(takes_part(&full(world, 4), grant), ways(37, [no_room]));
    let none = full(ledger(&wallets[..1], &[]), 4);
    assert_eq!(takes_part(&none, grant), ways(37, []));
}

#[test]
fn what_must_not_be_is_told() {
    let [again, something] = departed::NEVER;
    let world = with(0, &[]);
    let record = encode(&Submission::caps(admin(7), 8, 1, 1));
    let told = |after: &World, began| departed::decided(&world, after, &record, 0, began);
    let mut opened = world.clone();
    opened.wallets[2 * 6 + 3] = FROZEN;
    assert_eq!(told(&opened, Began::Lent), [again]);
    let mut paid = world.clone();
    paid.wallets[2 * 6 + 1] = 5;
    assert_eq!(told(&paid, Began::Lent), [""; 0]);
    assert_eq!(told(&paid, Began::Afresh), [something]);
    assert_eq!(told(&world, Began::Afresh), [""; 0]);
}

#[test]
fn lookups_are_told_by_what_they_find() {
    let mut wallets = vec![(7, 0, LIVE), (8, 0, FROZEN), (9, 0, CLOSED), (10, 0, 3)];
    wallets.extend([
        (11, 0, CLOSED),
        (11, 0, LIVE),
        (12, 0, LIVE),
        (12, 0, CLOSED),
    ]);
    let mut world = ledger(&wallets, &[]);
    // not written
    world.wallets[8 * 6] = 13;
    let told = |world: &World| {
        let mut tally = Tally::default();
        lookups::all(world, &mut Dice::new(1), &mut tally).expect("no difference");
        let left = tally.lookups.missing();
        left.into_iter().map(str::to_owned).collect::<Vec<_>>()
    };
    let wrong = [
        "missing, with a header of a wrong length",
        "missing, with wallets of a wrong length",
        "missing, with more rows written than there are",
    ];
    let nobody = "missing, in a row of id 0";
    assert_eq!(told(&world), [&[nobody][..], &wrong].concat());
    world.wallets[0] = 0;
    assert!(!told(&world).contains(&nobody.to_owned()));
    let changes: [fn(&mut World); 3] = [
        |world| world.header.push(0),
        |world| world.wallets.push(0),
        |world| world.header[4] = 10,
    ];
    for (change, way) in changes.into_iter().zip(wrong) {
        let mut world = world.clone();
        change(&mut world);
        assert!(!told(&world).contains(&way.to_owned()), "{way}");
    }
}
