//! Request 5/13, "No objection after the window": when answer 41 is given, and what stays as it was.
//! Its place among the answers is in `acceptance_order.rs`.

mod common;
use common::*;
use second::{receipt_row, Submission};

const NOW: u64 = 1_000_000;
/// The acceptance deadline.
const WINDOW: u64 = NOW + 300_000;
/// The escrow's deadline.
const DEADLINE: u64 = NOW + 1_000_000;
const DAY: u64 = 86_400_000;

/// 7 holds 49,000 and has an escrow 1 of 1,000 to 8.
fn before_a_claim() -> World {
    let mut world = World::usual();
    world.settles(grant(NOW, 1, 7, 50_000));
    world.settles(open(NOW, 7, 1, 8, 1_000, DEADLINE));
    world
}

/// What 8 may claim of 7: with a link or without, accepted when its time has come or not.
fn claims() -> [Submission; 4] {
    let linked = claim(NOW, 8, 1, 7, WINDOW, 1);
    let alone = claim(NOW, 8, 1, 7, WINDOW, 0);
    [linked, alone, auto(linked), auto(alone)]
}

/// Then 8 has claimed receipt 1 in this way.
fn after(claim: Submission) -> World {
    let mut world = before_a_claim();
    assert_eq!(world.settles(claim), 1);
    world
}

fn world() -> World {
    after(claims()[0])
}

/// 7 accepts or disputes receipt 1.
fn of_7(reply: Reply, now: u64) -> Submission {
    reply(now, 7, 9, 1)
}

#[test]
fn at_the_deadline_is_in_time_and_one_millisecond_later_is_not() {
    for claim in claims() {
        for (reply, state) in REPLIES.into_iter().zip([2, 3]) {
            for now in [NOW, WINDOW - 1, WINDOW] {
                let mut w = after(claim);
                let released = state == 2 && claim.link == 1;
                assert_eq!(w.settles(of_7(reply, now)), u64::from(released));
                assert_eq!(w.receipt(1)[5..10], [state, NOW, now, 7, 0]);
            }
            let mut w = after(claim);
            w.refuses(of_7(reply, WINDOW + 1), 41);
            w.refuses(of_7(reply, DEADLINE), 41);
        }
    }
}

#[test]
fn two_days_are_no_limit_and_a_late_sweep_is_no_excuse() {
    for claim in claims() {
        let mut w = after(claim);
        for late in [2 * DAY - 1, 2 * DAY, 2 * DAY + 1, TIME - 60_000 - WINDOW] {
            w.refuses(of_7(dispute, WINDOW + late), 41);
            w.refuses(of_7(accept, WINDOW + late), 41);
        }
    }
}

#[test]
fn a_claim_made_at_its_deadline_can_be_answered_at_that_moment_only() {
    for reply in REPLIES {
        // Issued five minutes before, as check 24 wants.
        let last = Submission {
            issued: WINDOW - 300_000,
            expires: WINDOW,
            ..claim(WINDOW, 8, 1, 7, WINDOW, 1)
        };
        let mut w = before_a_claim();
        w.settles(last);
        w.refuses(of_7(reply, WINDOW + 1), 41);
        w.settles(of_7(reply, WINDOW));
    }
}

#[test]
fn each_receipt_has_its_own_deadline() {
    for reply in REPLIES {
        let mut w = world();
        w.settles(claim(NOW, 8, 2, 7, WINDOW + 1, 0));
        w.settles(claim(NOW, 8, 3, 7, WINDOW + 2, 1));
        let of = |receipt, now| reply(now, 7, 9 + receipt, receipt);
        w.refuses(of(1, WINDOW + 1), 41);
        w.settles(of(2, WINDOW + 1));
        w.refuses(of(1, WINDOW + 2), 41);
        w.settles(of(3, WINDOW + 2));
        w.refuses(of(1, WINDOW + 3), 41);
    }
}

/// A lent receipt's deadline may be any time.
#[test]
fn the_receipts_word_decides_and_no_other_time() {
    for reply in REPLIES {
        // before it was claimed, and after the escrow's deadline
        for deadline in [NOW - 1, NOW, WINDOW + 7, DEADLINE + 9, TIME - 60_001] {
            let mut w = world();
            w.receipts[3] = deadline;
            assert!(w.sound());
            w.refuses(of_7(reply, deadline.max(NOW - 1) + 1), 41);
            if deadline >= NOW {
                w.settles(of_7(reply, deadline));
            }
        }
        // 0 is a time as any other, and not the lack of a deadline
        let mut w = world();
        w.receipts[3] = 0;
        w.refuses(of_7(reply, NOW), 41);
        w.header[2] = 0;
        w.refuses(of_7(reply, 1), 41);
        w.settles(of_7(reply, 0));
        // the last time of all never comes to an end
        let last = Submission {
            expires: TIME,
            ..signed(7, TIME, 7, 9)
        };
        let last = Submission {
            target: 1,
            flags: of_7(reply, NOW).flags,
            ..last
        };
        let mut w = world();
        w.receipts[3] = TIME - 1;
        w.refuses(last, 41);
        w.receipts[3] = TIME;
        w.settles(last);
        // claimed at, closed at and the escrow's times are not looked at
        for (claimed, closed) in [(WINDOW + 1, TIME), (0, 1), (TIME, 0)] {
            let mut w = world();
            w.receipts[6..8].copy_from_slice(&[claimed, closed]);
            w.escrows[3] = 0;
            w.refuses(of_7(reply, WINDOW + 1), 41);
            w.settles(of_7(reply, WINDOW));
        }
    }
}

#[test]
fn now_decides_and_not_the_envelope() {
    for reply in REPLIES {
        let sent = |now, issued, expires| Submission {
            issued,
            expires,
            ..of_7(reply, now)
        };
        // issued in time and come late
        let mut w = world();
        w.refuses(sent(WINDOW + 1, NOW, WINDOW + 1), 41);
        w.refuses(sent(WINDOW + 1, WINDOW, WINDOW + 60_000), 41);
        // in time, with an envelope that is issued after the deadline
        w.settles(sent(WINDOW, WINDOW + 30_000, WINDOW + 60_000));
    }
}

#[test]
fn the_clock_does_not_go_back_to_the_window() {
    for reply in REPLIES {
        let mut w = world();
        w.settles(grant(WINDOW + 1, 2, 9, 5));
        w.refuses(of_7(reply, WINDOW), 4);
        w.refuses(of_7(reply, WINDOW + 1), 41);
        // Nor does a system that was frozen until then make the window longer.
        let mut w = world();
        w.settles(freeze(NOW, 2, 0, true));
        w.refuses(of_7(reply, WINDOW), 5);
        w.refuses(of_7(reply, WINDOW + 1), 5);
        w.settles(freeze(WINDOW + 1, 3, 0, false));
        w.refuses(of_7(reply, WINDOW + 1), 41);
    }
}

#[test]
fn a_refused_reply_ends_nothing() {
    for reply in REPLIES {
        let mut w = world();
        let before = w.clone();
        assert_eq!(w.send(&of_7(reply, WINDOW + 1)), (41, 0));
        // The receipt is pending still, and a lookup hands back its row as it was.
        assert!(w == before);
        assert_eq!(receipt_row(&w.header, &w.receipts, 1), before.receipt(1));
        assert_eq!(w.receipt(1)[5..10], [1, NOW, 0, 0, 0]);
        // The clock has not moved: a record of the deadline is in time, by the same nonce.
        w.settles(of_7(reply, WINDOW));
        assert_eq!(w.header[2], WINDOW);
    }
}

#[test]
fn the_sweep_is_late_and_still_closes() {
    for (which, claim) in claims().into_iter().enumerate() {
        for late in [1, DAY] {
            let now = WINDOW + late;
            let mut w = after(claim);
            w.refuses(of_7(dispute, now), 41);
            w.refuses(of_7(accept, now), 41);
            // With a day's delay the escrow is stale too.
            let stale = u64::from(now > DEADLINE);
            assert_eq!(w.settles(sweep(now, 1_000)), 1 + stale);
            let (state, code) = match which {
                2 if stale == 1 => (2, 29),
                2 | 3 => (2, 0),
                _ => (4, 0),
            };
            assert_eq!(w.receipt(1)[5..10], [state, NOW, now, 0, code]);
            // What the late dispute would have stopped: 8 is paid.
            let paid = if which == 2 && stale == 0 { 1_000 } else { 0 };
            assert_eq!(w.has(8), (paid, 0));
        }
    }
}

/// At each moment a pending receipt can be answered, or is due for a sweep.
#[test]
fn a_pending_receipt_can_be_answered_exactly_while_no_sweep_would_close_it() {
    for claim in claims() {
        for now in [NOW, WINDOW - 1, WINDOW, WINDOW + 1, WINDOW + 2, DEADLINE] {
            let swept = after(claim).settles(sweep(now, 1_000));
            for reply in REPLIES {
                let (answer, _) = after(claim).send(&of_7(reply, now));
                assert_eq!(answer, 41 * swept, "at {}", now);
            }
        }
    }
}

/// Only replies are refused: the skipper may still pay, or take back what is held.
#[test]
fn other_operations_do_not_ask_for_the_window() {
    for (op, state, paid) in [(4, 2, 1_000), (5, 3, 0)] {
        for now in [WINDOW + 1, DEADLINE] {
            let mut w = after(claims()[2]);
            w.refuses(of_7(accept, now), 41);
            // by the number of the escrow, with the nonce that 41 did not burn
            assert_eq!(w.settles(close(op, now, 7, 9, 1)), 0);
            assert_eq!(w.escrow(1)[4..], [state, NOW, now, 7]);
            assert_eq!(w.has(8), (paid, 0));
            // The receipt is not closed by it, and its sweep finds nothing to release.
            w.refuses(accept(now, 7, 10, 1), 41);
            assert_eq!(w.settles(sweep(now, 1_000)), 1);
            assert_eq!(w.receipt(1)[5..10], [2, NOW, now, 0, 29]);
        }
    }
    // A second claim on the same escrow has a window of its own.
    let mut w = world();
    let now = WINDOW + 1;
    w.refuses(of_7(accept, now), 41);
    w.settles(claim(now, 8, 2, 7, DEADLINE, 1));
    w.refuses(accept(DEADLINE, 7, 9, 1), 41);
    assert_eq!(w.settles(accept(DEADLINE, 7, 9, 2)), 1);
    assert_eq!(w.has(8), (1_000, 0));
    w.refuses(accept(DEADLINE, 7, 10, 1), 41);
    // Those that name no receipt do not ask, whatever receipt has their target's number.
    w.settles(transfer(DEADLINE, 7, 11, 1, 5));
    w.settles(grant(DEADLINE, 3, 1, 5));
    w.settles(caps(DEADLINE, 4, 1, 5, 5));
    w.settles(freeze(DEADLINE, 5, 1, true));
}

/// A claim's window fits into its escrow's time (31). So since this request an accept on a ledger
/// that began afresh never finds its escrow open and stale; a sweep's accept may.
#[test]
fn an_accept_in_time_finds_its_escrow_not_stale() {
    let mut w = before_a_claim();
    w.refuses(claim(NOW, 8, 1, 7, DEADLINE + 1, 1), 31);
    w.settles(auto(claim(NOW, 8, 1, 7, DEADLINE, 1)));
    let mut at = w.clone();
    assert_eq!(at.settles(of_7(accept, DEADLINE)), 1);
    assert_eq!(at.receipt(1)[9], 0);
    w.refuses(of_7(accept, DEADLINE + 1), 41);
    assert_eq!(w.settles(sweep(DEADLINE + 1, 1)), 1);
    assert_eq!(w.receipt(1)[9], 29);
}
