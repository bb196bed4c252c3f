//! Request 7/13, "One reply to a claim": what each reply does, and how it is answered. Which records
//! are one is in `one_reply_form.rs`, the order of all checks in `acceptance_order.rs`, recordings are
//! in `one_reply_recordings.rs`, and the converter is in `converter.rs`.

mod common;
use common::*;
use second::{submit, submit_in, Form, Submission};

const NOW: u64 = 1_000_000;
/// The acceptance deadline.
const WINDOW: u64 = NOW + 300_000;
const DEADLINE: u64 = NOW + 1_000_000;

/// Escrow 1 of 1,000 is from 7 to 8, and 8 has claimed receipt 1 of 7 on it, by journal row 3.
fn world() -> World {
    let mut world = World::usual();
    world.settles(grant(NOW, 1, 7, 50_000));
    world.settles(open(NOW, 7, 1, 8, 1_000, DEADLINE));
    world.settles(claim(NOW, 8, 1, 7, WINDOW, 1));
    world
}

#[test]
fn bit_2_accepts() {
    let mut w = world();
    assert_eq!(w.settles(accept(NOW, 7, 9, 1)), 1);
    assert_eq!(w.receipt(1)[5..10], [2, NOW, NOW, 7, 0]);
    assert_eq!(w.escrow(1)[4..], [2, NOW, NOW, 7]);
    assert_eq!((w.has(7), w.has(8)), ((49_000, 0), (1_000, 0)));
    assert_eq!(w.entry(4), [7, 9, 7, 1, 0, NOW, 1, 0]);
}

#[test]
fn without_bit_2_it_is_a_dispute() {
    let mut w = world();
    assert_eq!(w.settles(dispute(NOW, 7, 9, 1)), 0);
    assert_eq!(w.receipt(1)[5..10], [3, NOW, NOW, 7, 0]);
    assert_eq!(w.escrow(1)[4..], [1, NOW, 0, 0]);
    assert_eq!((w.has(7), w.has(8)), ((49_000, 1_000), (0, 0)));
    // The journal has the record's operation, and no row says 8 any more.
    assert_eq!(w.entry(4), [7, 9, 7, 1, 0, NOW, 0, 0]);
}

#[test]
fn a_reason_is_asked_of_a_dispute_only() {
    let mut w = world();
    w.refuses(without_a_reason(dispute(NOW, 7, 9, 1)), 35);
    // "Accept requires bit 3 to be clear"
    w.settles(accept(NOW, 7, 9, 1));
}

/// It is not a reply at all, whatever else would be said of it.
#[test]
fn an_accept_with_a_reason_is_malformed() {
    for (now, signer, nonce, target) in [
        (NOW, 7, 9, 1),
        (NOW - 1, 7, 9, 1),
        (NOW, 7, 1, 1),
        (NOW, 7, 9, 2),
        (NOW, 8, 9, 1),
        (WINDOW + 1, 7, 9, 1),
    ] {
        for flags in [BIT2 | REASON, SIGNED | BIT2 | REASON] {
            let s = Submission {
                flags,
                ..accept(now, signer, nonce, target)
            };
            let mut w = world();
            let before = w.clone();
            assert_eq!(submit(&mut w.tables(), &raw(&s)), (3, 0));
            assert!(w == before);
            // 1 and 2 come before it.
            w.header[0] = 2;
            assert_eq!(submit(&mut w.tables(), &raw(&s)), (2, 0));
            w.header.truncate(7);
            assert_eq!(submit(&mut w.tables(), &raw(&s)), (1, 0));
        }
    }
}

#[test]
fn what_was_a_dispute_is_answered_3() {
    let mut w = world();
    let before = w.clone();
    for flags in [0, SIGNED, SIGNED | REASON, SIGNED | BIT2] {
        let s = Submission {
            flags,
            ..old(dispute(NOW, 7, 9, 1))
        };
        assert_eq!(s.op, 8);
        assert_eq!(submit(&mut w.tables(), &raw(&s)), (3, 0));
    }
    assert!(w == before);
    // And what was an accept is a dispute without a reason.
    w.refuses(old(accept(NOW, 7, 9, 1)), 35);
}

/// The ways in which a reply is answered: in time and late, by another, twice, to no receipt.
fn cases(reply: Reply) -> [Submission; 8] {
    [
        reply(NOW, 7, 9, 1),
        reply(WINDOW, 7, 9, 1),
        reply(WINDOW + 1, 7, 9, 1),
        reply(NOW, 8, 9, 1),
        reply(NOW, 7, 9, 2),
        reply(NOW, 7, 1, 1),
        reply(NOW - 1, 7, 9, 1),
        without_a_reason(reply(NOW, 7, 9, 1)),
    ]
}

/// The same in both forms, but for the operation in the journal.
#[test]
fn under_the_old_form_a_reply_does_the_same() {
    for (reply, operation) in REPLIES.into_iter().zip([7, 8]) {
        for s in cases(reply) {
            let (mut new, mut before) = (world(), world());
            let answer = submit_in(Form::New, &mut new.tables(), &raw(&s));
            let was = submit_in(Form::Old, &mut before.tables(), &raw(&old(s)));
            assert_eq!(answer, was, "{:?}", s);
            if answer.0 == 0 {
                assert_eq!(new.entry(4)[2], 7);
                assert_eq!(before.entry(4)[2], operation);
                before.journal[3 * 8 + 2] = 7;
            }
            assert!(new == before);
        }
    }
}

/// "Checks 32, 33, 34, 41 and 35 keep their order", one after the other as what is wrong is put
/// right; the last is for a dispute only.
#[test]
fn from_32_to_35() {
    for reply in REPLIES {
        let mut w = world();
        w.receipts[5] = 4;
        let bare = |now, signer, target| without_a_reason(reply(now, signer, 9, target));
        let late = WINDOW + 1;
        w.refuses(bare(late, 8, 2), 32);
        w.refuses(bare(late, 8, 1), 33);
        w.refuses(bare(late, 7, 1), 34);
        w.receipts[5] = 1;
        w.refuses(bare(late, 7, 1), 41);
        match bare(WINDOW, 7, 1) {
            dispute if dispute.flags & BIT2 == 0 => w.refuses(dispute, 35),
            accept => assert_eq!(w.settles(accept), 1),
        }
    }
}

/// Rows that were settled as operation 8 stay what they are, and nothing looks at the word.
#[test]
fn a_lent_journal_may_have_disputes_of_before() {
    for reply in REPLIES {
        let mut w = world();
        w.journal[2 * 8 + 2] = 8;
        assert!(w.sound());
        w.refuses(reply(NOW, 8, 1, 1), 11);
        let mut same = world();
        assert_eq!(
            w.settles(reply(NOW, 7, 9, 1)),
            same.settles(reply(NOW, 7, 9, 1))
        );
        assert_eq!(w.entry(3)[2], 8);
        w.journal[2 * 8 + 2] = 6;
        assert!(w == same);
    }
}
