//! Request 7/13, "One reply to a claim": which records are a reply in the new form and in the old
//! one. What a reply does is in `one_reply.rs`.

mod common;
use common::*;
use second::{read, read_in, submit, submit_in, write, write_in, Form, Submission};

const NOW: u64 = 1_000_000;
const WINDOW: u64 = NOW + 300_000;
const DEADLINE: u64 = NOW + 1_000_000;

/// Reader and writer must agree, and a submission is answered 3 for what is malformed only.
fn well_formed(form: Form, s: &Submission) -> bool {
    let raw = raw(s);
    let mut out = [0x55; 108];
    let mut world = World::usual();
    let (answer, _) = submit_in(form, &mut world.tables(), &raw);
    if write_in(form, s, &mut out) == 0 {
        assert_eq!(out, raw);
        assert_eq!(read_in(form, &raw), (0, *s));
        assert_ne!(answer, 3);
        true
    } else {
        assert_eq!(out, [0x55; 108]);
        assert_eq!(read_in(form, &raw), (3, Submission::default()));
        assert_eq!(answer, 3);
        false
    }
}

fn with_flags(op: u8, flags: u8) -> Submission {
    Submission {
        flags,
        target: 1,
        ..signed(op, NOW, 7, 9)
    }
}

/// The flags of the well-formed ones.
fn flags_of(form: Form, op: u8) -> Vec<u8> {
    (0..=255)
        .filter(|&flags| well_formed(form, &with_flags(op, flags)))
        .collect()
}

#[test]
fn operation_7_has_bit_2_or_bit_3_or_neither() {
    let bits = [
        0b0000, 0b0001, // a dispute without a reason
        0b0100, 0b0101, // an accept
        0b1000, 0b1001, // a dispute
    ];
    assert_eq!(flags_of(Form::New, 7), bits);
}

#[test]
fn operation_8_is_malformed() {
    assert_eq!(flags_of(Form::New, 8), []);
    // with whatever another operation uses, too
    for s in [
        grant(NOW, 9, 7, 5),
        open(NOW, 7, 9, 8, 5, DEADLINE),
        claim(NOW, 7, 9, 8, WINDOW, 1),
        accept(NOW, 7, 9, 1),
        dispute(NOW, 7, 9, 1),
        sweep(NOW, 5),
        close_wallet(NOW, 9, 8),
    ] {
        assert!(well_formed(Form::New, &s));
        assert!(!well_formed(Form::New, &Submission { op: 8, ..s }));
    }
}

#[test]
fn in_the_old_form_7_has_no_bit_and_8_has_bit_3() {
    assert_eq!(flags_of(Form::Old, 7), [0b0000, 0b0001]);
    assert_eq!(flags_of(Form::Old, 8), [0b0000, 0b0001, 0b1000, 0b1001]);
}

/// In both forms a reply uses its target, and neither amount, until, link nor hash.
#[test]
fn what_else_a_reply_uses() {
    for reply in REPLIES {
        let new = reply(NOW, 7, 9, u64::MAX);
        for (form, s) in [(Form::New, new), (Form::Old, old(new))] {
            assert!(well_formed(form, &s));
            let wrong: [fn(&mut Submission); 10] = [
                |s| s.amount = 1,
                |s| s.until = 1,
                |s| s.link = 1,
                |s| s.hash[0] = 1,
                |s| s.hash[3] = 1 << 63,
                |s| s.signer = 0,
                |s| s.now = TIME + 1,
                |s| s.expires = s.issued - 1,
                |s| s.flags |= ADMIN,
                |s| s.flags |= 0x80,
            ];
            for change in wrong {
                let mut s = s;
                change(&mut s);
                assert!(!well_formed(form, &s), "{:?} {:?}", form, s);
            }
        }
    }
}

/// "all other rules being today's": of all other operation bytes, 12 of request 6/13 too, the two
/// forms say the same.
#[test]
fn the_forms_differ_in_7_and_8_only() {
    let parts = [
        grant(NOW, 9, 7, 5),
        open(NOW, 7, 9, 8, 5, DEADLINE),
        claim(NOW, 7, 9, 8, WINDOW, 1),
        caps(NOW, 9, 7, 5, 5),
        close_wallet(NOW, 9, 7),
        sweep(NOW, 5),
        Submission::default(),
    ];
    for op in (0..=255).filter(|op| !matches!(op, 7 | 8)) {
        for flags in 0..16 {
            for s in parts {
                let s = Submission { op, flags, ..s };
                let is = well_formed(Form::New, &s);
                assert_eq!(well_formed(Form::Old, &s), is, "{:?}", s);
                assert!(!is || matches!(op, 1..=6 | 9..=12));
            }
        }
    }
    for form in [Form::Old, Form::New] {
        assert!(well_formed(form, &close_wallet(NOW, 9, 7)));
        assert!(!well_formed(form, &with_flags(13, SIGNED)));
    }
}

/// `read`, `write` and `submit` are by the new form.
#[test]
fn the_new_form_is_the_usual_one() {
    for op in [7, 8] {
        for flags in 0..=255 {
            let s = with_flags(op, flags);
            assert_eq!(read(&raw(&s)), read_in(Form::New, &raw(&s)));
            let (mut usual, mut new) = ([0x55; 108], [0x55; 108]);
            let answer = write(&s, &mut usual);
            assert_eq!(answer, write_in(Form::New, &s, &mut new));
            assert_eq!(usual, new);
            let (mut usual, mut new) = (World::usual(), World::usual());
            let answer = submit(&mut usual.tables(), &raw(&s));
            assert_eq!(answer, submit_in(Form::New, &mut new.tables(), &raw(&s)));
            assert!(usual == new);
        }
    }
}
