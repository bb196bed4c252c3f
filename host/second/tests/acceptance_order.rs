//! Request 5/13: answer 41 "stands between 34 and 35", and the order of the answers "is now that of
//! the table's rows, not of the numbers".

mod common;
use common::*;
use second::Submission;

const NOW: u64 = 1_000_000;
/// The acceptance deadline.
const WINDOW: u64 = NOW + 300_000;
const LATE: u64 = WINDOW + 1;

/// 8 has claimed receipt 1 of 7, by journal row 3; the journal has room for so many.
fn with_journal(room: usize) -> World {
    let mut world = World::new(8, 8, 8, room);
    world.settles(grant(NOW, 1, 7, 50_000));
    world.settles(open(NOW, 7, 1, 8, 1_000, WINDOW));
    world.settles(claim(NOW, 8, 1, 7, WINDOW, 1));
    world
}

#[test]
fn a_closed_receipt_still_answers_34() {
    let auto_accepted = {
        let mut w = World::usual();
        w.settles(grant(NOW, 1, 7, 50_000));
        w.settles(open(NOW, 7, 1, 8, 1_000, WINDOW));
        w.settles(auto(claim(NOW, 8, 1, 7, WINDOW, 1)));
        w
    };
    // accepted, disputed, expired, and accepted by the sweep
    let ends = [
        (with_journal(9), accept(NOW, 7, 2, 1), 2),
        (with_journal(9), dispute(WINDOW, 7, 2, 1), 3),
        (with_journal(9), sweep(LATE, 1), 4),
        (auto_accepted, sweep(LATE, 1), 2),
    ];
    for (mut w, end, state) in ends {
        // Before it is closed, the same records are answered 41.
        let replies = REPLIES.map(|reply| reply(LATE, 7, 9, 1));
        for late in replies {
            w.refuses(late, 41);
        }
        w.settles(end);
        assert_eq!(w.receipt(1)[5], state);
        for late in replies {
            for now in [LATE, LATE + 2 * 86_400_000] {
                let late = Submission {
                    now,
                    issued: now,
                    expires: now,
                    ..late
                };
                w.refuses(late, 34);
                w.refuses(without_a_reason(late), 34);
            }
        }
        if end.op != 9 {
            for reply in REPLIES {
                w.refuses(reply(WINDOW, 7, 9, 1), 34);
            }
        }
    }
}

#[test]
fn a_late_dispute_without_a_reason_is_late() {
    let mut w = with_journal(9);
    let bare = |now| without_a_reason(dispute(now, 7, 9, 1));
    w.refuses(bare(NOW), 35);
    w.refuses(bare(WINDOW), 35);
    // 35 is the lower number and the later row.
    w.refuses(bare(LATE), 41);
    w.refuses(dispute(LATE, 7, 9, 1), 41);
}

#[test]
fn on_a_full_journal_a_late_reply_is_late() {
    let mut w = with_journal(3);
    for reply in REPLIES {
        // 40 is the lower number and the later row.
        w.refuses(reply(LATE, 7, 9, 1), 41);
        w.refuses(reply(WINDOW, 7, 9, 1), 40);
    }
    let bare = |now| without_a_reason(dispute(now, 7, 9, 1));
    w.refuses(bare(LATE), 41);
    w.refuses(bare(WINDOW), 35);
}

#[test]
fn a_missing_receipt_and_a_stranger_come_first() {
    let mut w = with_journal(9);
    for reply in REPLIES {
        for target in [0, 2, u64::MAX] {
            w.refuses(reply(LATE, 7, 9, target), 32);
        }
        // The words of the unwritten row 2 are one of 7's receipts that is late.
        let row = w.receipt(1).to_vec();
        w.receipts[14..28].copy_from_slice(&row);
        w.refuses(reply(LATE, 7, 9, 2), 32);
        for stranger in [1, 8, 9] {
            w.refuses(reply(LATE, stranger, 9, 1), 33);
        }
    }
}

/// Every way in which a reply can be refused, alone and together with the others: for each, what
/// has to be so. `wrong` has one bit for each row below, in the table's order.
fn refused(reply: Reply, wrong: u32) -> (World, Submission) {
    let is = |row: usize| wrong & (1 << row) != 0;
    let mut w = with_journal(if is(10) { 3 } else { 9 });
    let now = if is(8) { LATE } else { WINDOW };
    let signer = if is(6) { 8 } else { 7 };
    let nonce = if is(4) { 1 } else { 9 };
    let mut s = reply(now, signer, nonce, if is(5) { 2 } else { 1 });
    w.header[2] = if is(0) { now + 1 } else { now };
    w.header[1] = u64::from(is(1));
    if is(2) {
        s.flags &= !SIGNED;
    }
    if is(3) {
        s.issued = now - 2;
        s.expires = now - 1;
    }
    if is(7) {
        w.receipts[5] = 4;
    }
    if is(9) {
        s = without_a_reason(s);
    }
    (w, s)
}

/// The rows of the table that may refuse a reply, from the top.
const ROWS: [u64; 11] = [4, 5, 6, 9, 11, 32, 33, 34, 41, 35, 40];

#[test]
fn the_answer_is_the_first_of_the_tables_rows_that_holds() {
    for (reply, needs_a_reason) in REPLIES.into_iter().zip([false, true]) {
        for wrong in 0..1 << ROWS.len() {
            let holds = |row: usize| {
                let about_the_receipt = matches!(ROWS[row], 33 | 34 | 41);
                wrong & (1 << row) != 0
                    // no condition holds about a row that isn't there
                    && !(about_the_receipt && wrong & (1 << 5) != 0)
                    // an accept needs no reason
                    && (ROWS[row] != 35 || needs_a_reason)
            };
            let (mut w, s) = refused(reply, wrong);
            match (0..ROWS.len()).find(|&row| holds(row)) {
                Some(row) => w.refuses(s, ROWS[row]),
                None => drop(w.settles(s)),
            }
        }
    }
}
