//! Request 7/13, "One reply to a claim": what the converter makes of each kind of record, and what it
//! leaves. Recordings by chance are in `converter_random.rs`.

mod common;
use common::*;
use second::{
    convert, entry, read, read_in, replay, replay_in, Form, Found, Submission, ENTRY_BYTES,
};

const NOW: u64 = 1_000_000;
const WINDOW: u64 = NOW + 300_000;
const DEADLINE: u64 = NOW + 1_000_000;

/// An answer and a word that no reply has, so that it shows if they are touched.
const NUMBER: u8 = 0xB5;
const WORD: u64 = 0xF1E2_D3C4_B5A6_9788;

/// What the converter makes of this record. The answer recorded with it stays.
#[track_caller]
fn converted(record: [u8; 108]) -> [u8; 108] {
    let mut recording = entry(&record, NUMBER, WORD);
    convert(&mut recording);
    let mut result = [0; 108];
    result.copy_from_slice(&recording[..108]);
    assert_eq!(recording, entry(&result, NUMBER, WORD));
    result
}

/// Operation 0, and every other byte is left.
#[track_caller]
fn gets_operation_0(record: [u8; 108]) {
    assert_eq!(read_in(Form::Old, &record), (3, Submission::default()));
    let mut expected = record;
    expected[2] = 0;
    assert_eq!(converted(record), expected, "{:?}", record);
    assert_eq!(read(&expected), (3, Submission::default()));
}

#[track_caller]
fn stays(record: [u8; 108]) {
    assert_eq!(converted(record), record);
}

/// One of each operation that is no reply, 12 of request 6/13 too.
fn others() -> Vec<Submission> {
    vec![
        grant(NOW, 9, 7, 5),
        transfer(NOW, 7, 9, 8, 5),
        open(NOW, 7, 9, 8, 5, DEADLINE),
        close(4, NOW, 7, 9, 1),
        close(5, NOW, 7, 9, 1),
        claim(NOW, 7, 9, 8, WINDOW, 1),
        auto(claim(NOW, 7, 9, 8, WINDOW, 0)),
        sweep(NOW, 5),
        freeze(NOW, 9, 7, true),
        freeze(NOW, 9, 0, false),
        caps(NOW, 9, 7, 5, 5),
        close_wallet(NOW, 9, 7),
    ]
}

fn old_reply(op: u8, flags: u8) -> Submission {
    Submission {
        flags,
        target: 1,
        ..signed(op, NOW, 7, 9)
    }
}

#[test]
fn an_accept_gets_bit_2() {
    for flags in [0, SIGNED] {
        let record = raw(&old_reply(7, flags));
        let mut expected = record;
        expected[3] = flags | BIT2;
        assert_eq!(converted(record), expected);
    }
    assert_eq!(
        converted(raw(&old_reply(7, SIGNED))),
        bytes(&accept(NOW, 7, 9, 1))
    );
}

#[test]
fn a_dispute_gets_operation_7_and_keeps_its_reason() {
    for flags in [0, SIGNED, REASON, SIGNED | REASON] {
        let record = raw(&old_reply(8, flags));
        let mut expected = record;
        expected[2] = 7;
        assert_eq!(converted(record), expected);
    }
    let disputed = dispute(NOW, 7, 9, 1);
    for s in [disputed, without_a_reason(disputed)] {
        assert_eq!(converted(raw(&old(s))), bytes(&s));
    }
}

#[test]
fn what_is_no_reply_stays() {
    for s in others() {
        stays(bytes(&s));
        // by its form alone, whatever it would be answered
        stays(bytes(&Submission {
            now: 0,
            nonce: 0,
            issued: 0,
            expires: 0,
            ..s
        }));
    }
}

#[test]
fn a_reply_that_was_malformed_is_none() {
    for flags in 0..=255 {
        if flags & !SIGNED != 0 {
            gets_operation_0(raw(&old_reply(7, flags)));
        }
        if flags & !(SIGNED | REASON) != 0 {
            gets_operation_0(raw(&old_reply(8, flags)));
        }
    }
    // Each of these would be a reply in the new form, or the other one, if its operation stayed.
    for s in [
        accept(NOW, 7, 9, 1),
        dispute(NOW, 7, 9, 1),
        Submission {
            op: 8,
            ..accept(NOW, 7, 9, 1)
        },
    ] {
        gets_operation_0(raw(&s));
    }
}

#[test]
fn bytes_that_are_no_operation_become_0() {
    for op in (0..=255).filter(|op| !(1..=12).contains(op)) {
        for s in others() {
            gets_operation_0(raw(&Submission { op, ..s }));
        }
        gets_operation_0(raw(&old_reply(op, SIGNED)));
    }
}

/// Of each operation, in every way that a record can be.
#[test]
fn whatever_was_malformed_gets_operation_0() {
    let replies = [old_reply(7, SIGNED), old_reply(8, SIGNED | REASON)];
    for s in others().into_iter().chain(replies) {
        for place in [0, 1] {
            let mut record = raw(&s);
            record[place] ^= 0x10;
            gets_operation_0(record);
        }
        for bit in 4..8 {
            let flags = s.flags | 1 << bit;
            gets_operation_0(raw(&Submission { flags, ..s }));
        }
        let wrong: [fn(&mut Submission); 6] = [
            // a sweep has no signer
            |s| s.signer = u64::from(s.op == 9),
            |s| s.now = TIME + 1,
            |s| s.expires = TIME + 1,
            |s| s.issued = s.expires + 1,
            |s| s.until = TIME + 1,
            |s| {
                if s.op == 6 {
                    s.amount = 1;
                } else {
                    s.hash[3] = 1 << 63;
                }
            },
        ];
        for change in wrong {
            let mut s = s;
            change(&mut s);
            gets_operation_0(raw(&s));
        }
    }
    // bits and parts that another operation uses
    for s in [
        Submission {
            flags: SIGNED | ADMIN,
            ..transfer(NOW, 7, 9, 8, 5)
        },
        auto(close_wallet(NOW, 9, 7)),
        Submission {
            flags: SIGNED,
            ..sweep(NOW, 5)
        },
        Submission {
            link: 1,
            ..old_reply(7, SIGNED)
        },
        Submission {
            amount: 1,
            ..old_reply(8, SIGNED)
        },
    ] {
        gets_operation_0(raw(&s));
    }
}

/// A recording of old replies, malformed ones and others, with answers by chance.
fn recording(dice: &mut Dice) -> (Vec<u8>, Vec<u8>) {
    let (mut before, mut after) = (Vec::new(), Vec::new());
    for (s, op, flags) in [
        (old_reply(7, SIGNED), 7, SIGNED | BIT2),
        (old_reply(8, SIGNED | REASON), 7, SIGNED | REASON),
        (old_reply(7, SIGNED | BIT2), 0, SIGNED | BIT2),
        (close_wallet(NOW, 9, 7), 12, SIGNED | ADMIN),
        (old_reply(8, SIGNED), 7, SIGNED),
        (old_reply(13, SIGNED), 0, SIGNED),
        (old_reply(7, 0), 7, BIT2),
    ] {
        let (number, word) = (dice.word() as u8, dice.word());
        before.extend(entry(&raw(&s), number, word));
        after.extend(entry(&raw(&Submission { op, flags, ..s }), number, word));
    }
    (before, after)
}

#[test]
fn every_entry_is_converted_and_every_answer_stays() {
    let mut dice = Dice(7);
    for _ in 0..50 {
        let (mut lent, after) = recording(&mut dice);
        convert(&mut lent);
        assert_eq!(lent, after);
    }
    convert(&mut []);
}

/// Also one of which the whole record is there.
#[test]
fn a_cut_last_entry_stays() {
    let (before, after) = recording(&mut Dice(8));
    for length in 0..=before.len() {
        let mut lent = before[..length].to_vec();
        convert(&mut lent);
        let whole = length - length % ENTRY_BYTES;
        assert_eq!(lent[..whole], after[..whole]);
        assert_eq!(lent[whole..], before[whole..length]);
    }
}

/// What was recorded is not asked: a malformed record with a settled answer is malformed, and a
/// reply with answer 3 is a reply. What disagreed before disagrees after, at the same entry.
#[test]
fn the_recorded_answer_decides_nothing() {
    let story = [
        grant(NOW, 1, 7, 50_000),
        open(NOW, 7, 1, 8, 1_000, DEADLINE),
        claim(NOW, 8, 1, 7, WINDOW, 1),
    ];
    for (s, answer) in [
        (old_reply(7, SIGNED), (0, 1)),
        (old_reply(8, SIGNED | REASON), (0, 0)),
        (old_reply(8, SIGNED), (35, 0)),
        (old_reply(7, SIGNED | BIT2), (3, 0)),
        (old_reply(7, SIGNED | REASON), (3, 0)),
        (old_reply(8, SIGNED | BIT2), (3, 0)),
        (old_reply(8, SIGNED | BIT2 | REASON), (3, 0)),
    ] {
        for recorded in [(0, 0), (0, 1), (3, 0), (35, 0), (255, 7)] {
            let mut lent = Vec::new();
            for (s, word) in story.iter().zip([0, 1, 1]) {
                lent.extend(entry(&bytes(s), 0, word));
            }
            let (number, word) = recorded;
            lent.extend(entry(&raw(&s), number, word));
            let found = match (u64::from(number), word) {
                same if same == answer => Found::AllAgree(4),
                recorded => Found::Disagrees {
                    entry: 4,
                    recorded,
                    answered: answer,
                },
            };
            let mut world = World::usual();
            assert_eq!(replay_in(Form::Old, &mut world.tables(), &lent), found);
            convert(&mut lent);
            assert_eq!(replay(&mut world.tables(), &lent), found);
        }
    }
}

/// Once and no more: a reply in the new form is by the old one malformed, or the other reply.
#[test]
fn a_second_conversion_is_another_one() {
    for (s, again) in [
        // an accept and a dispute with a reason are malformed
        (old_reply(7, SIGNED), (0, SIGNED | BIT2)),
        (old_reply(8, SIGNED | REASON), (0, SIGNED | REASON)),
        // and a dispute without one becomes an accept
        (old_reply(8, SIGNED), (7, SIGNED | BIT2)),
    ] {
        let (op, flags) = again;
        let twice = converted(converted(raw(&s)));
        assert_eq!(twice, raw(&Submission { op, flags, ..s }));
    }
    // All else is what it was.
    for s in others() {
        stays(converted(bytes(&s)));
        stays(converted(raw(&Submission { op: 0, ..s })));
        stays(converted(raw(&Submission { now: u64::MAX, ..s })));
    }
    stays(converted(raw(&old_reply(7, SIGNED | BIT2))));
}
