//! Section "The submission record": reading, writing, round trips.

mod common;
use common::*;
use second::{read, write, Submission};

fn none() -> (u64, Submission) {
    (3, Submission::default())
}

/// The operations, each with the flag bits that it uses besides bit 0. Since request 7/13 operation 7
/// is an accept or a dispute, and 8 is none.
const OPERATIONS: [(u8, u8); 12] = [
    (1, ADMIN),
    (2, 0),
    (3, 0),
    (4, ADMIN),
    (5, ADMIN),
    (6, BIT2),
    (7, BIT2),
    (7, REASON),
    (9, 0),
    (10, ADMIN | BIT2),
    (11, ADMIN),
    (12, ADMIN),
];

/// One well-formed submission of each operation, every used part nonzero.
fn one_of_each() -> Vec<Submission> {
    OPERATIONS
        .iter()
        .map(|&(op, bits)| {
            let s = if op == 9 {
                sweep(5, 6)
            } else {
                signed(op, 5, 6, 7)
            };
            let mut s = Submission { op, ..s };
            s.target = if op == 9 { 0 } else { 0x0102_0304_0506_0708 };
            if matches!(op, 1 | 2 | 3 | 11) {
                s.amount = u64::MAX;
            }
            if matches!(op, 3 | 6) {
                s.until = TIME;
            }
            if matches!(op, 6 | 11) {
                s.link = u64::MAX - 1;
            }
            if op == 6 {
                s.hash = [1, 2 << 56, 3, u64::MAX];
            }
            s.flags |= bits;
            s
        })
        .collect()
}

#[test]
fn round_trips() {
    for s in one_of_each() {
        assert_eq!(read(&bytes(&s)), (0, s));
    }
}

#[test]
fn the_bytes_stand_in_order() {
    let s = Submission {
        op: 6,
        flags: SIGNED | BIT2,
        now: 0x0000_0605_0403_0201,
        signer: 2,
        nonce: 3,
        issued: 4,
        expires: 5,
        target: 6,
        amount: 0,
        until: 8,
        link: 9,
        hash: [10, 11, 12, 0x1817_1615_1413_1211],
    };
    let out = bytes(&s);
    assert_eq!(out[..4], [0xA7, 0x3C, 6, 5]);
    assert_eq!(out[4..12], [1, 2, 3, 4, 5, 6, 0, 0]);
    for (at, value) in [(1, 2), (2, 3), (3, 4), (4, 5), (5, 6), (6, 0), (7, 8)] {
        assert_eq!(out[4 + at * 8], value);
    }
    assert_eq!(out[68], 9);
    assert_eq!([out[76], out[84], out[92]], [10, 11, 12]);
    assert_eq!(out[100..], [0x11, 0x12, 0x13, 0x14, 0x15, 0x16, 0x17, 0x18]);
}

#[test]
fn whatever_an_operation_does_not_use_is_zero() {
    // By operation: flag bits, each by itself, then signer, nonce, issued with
    // expires, target, amount, until, link, hash.
    let uses: [(u8, u8, &str); 11] = [
        (1, 0b0011, "sniTA"),
        (2, 0b0001, "sniTA"),
        (3, 0b0001, "sniTAU"),
        (4, 0b0011, "sniT"),
        (5, 0b0011, "sniT"),
        (6, 0b0101, "sniTULH"),
        // Since request 7/13 also what was 8; bits 2 and 3 not together.
        (7, 0b1101, "sniT"),
        (9, 0b0000, "A"),
        (10, 0b0111, "sniT"),
        (11, 0b0011, "sniTAL"),
        // Since request 6/13.
        (12, 0b0011, "sniT"),
    ];
    for (op, bits, parts) in uses {
        let plain = Submission {
            op,
            signer: u64::from(op != 9),
            ..Submission::default()
        };
        assert_eq!(read(&bytes(&plain)), (0, plain));
        for bit in 0..8 {
            let s = Submission {
                flags: 1 << bit,
                ..plain
            };
            assert_eq!(well_formed(&s), bits & (1 << bit) != 0, "{:?}", s);
        }
        for part in "sniTAULH".chars() {
            let mut variants = vec![plain];
            match part {
                's' => variants[0].signer = 9,
                'n' => variants[0].nonce = 9,
                'i' => {
                    variants[0].expires = 9;
                    variants.push(variants[0]);
                    variants[1].issued = 9;
                }
                'T' => variants[0].target = 1 << 63,
                'A' => variants[0].amount = 1 << 63,
                'U' => variants[0].until = 9,
                'L' => variants[0].link = 9,
                _ => {
                    variants = vec![plain; 4];
                    for (word, s) in variants.iter_mut().enumerate() {
                        s.hash[word] = 1 << 40;
                    }
                }
            }
            for s in variants {
                assert_eq!(well_formed(&s), parts.contains(part), "{:?}", s);
            }
        }
    }
}

/// Reader and writer must agree; the raw bytes are made here.
fn well_formed(s: &Submission) -> bool {
    let raw = raw(s);
    let mut out = [0x55; 108];
    if write(s, &mut out) == 0 {
        assert_eq!(out, raw);
        assert_eq!(read(&raw), (0, *s));
        true
    } else {
        assert_eq!(out, [0x55; 108]);
        assert_eq!(read(&raw), none());
        false
    }
}

#[test]
fn malformed_fields() {
    let base = claim(5, 6, 7, 8, 9, 0);
    assert!(well_formed(&base));
    let wrong: [fn(&mut Submission); 9] = [
        |s| s.op = 0,
        |s| s.op = 8,
        |s| s.op = 13,
        |s| s.op = 255,
        |s| s.signer = 0,
        |s| s.now = TIME + 1,
        |s| {
            s.issued = TIME + 1;
            s.expires = TIME + 1;
        },
        |s| s.until = TIME + 1,
        |s| s.expires = s.issued - 1,
    ];
    for change in wrong {
        let mut s = base;
        change(&mut s);
        assert!(!well_formed(&s), "{:?}", s);
    }
    let mut late = base;
    late.expires = TIME + 1;
    assert!(!well_formed(&late));
    late.expires = TIME;
    late.issued = TIME;
    late.now = TIME;
    late.until = TIME;
    assert!(well_formed(&late));
    assert!(!well_formed(&sweep(TIME + 1, 1)));
    assert!(well_formed(&sweep(TIME, u64::MAX)));
}

/// Whatever their parts, and also with none but a signer.
#[test]
fn no_other_byte_is_an_operation() {
    let bare = Submission {
        signer: 6,
        ..Submission::default()
    };
    for op in (0..=255).filter(|op| !matches!(op, 1..=7 | 9..=12)) {
        for s in one_of_each().into_iter().chain([bare, sweep(5, 6)]) {
            assert!(!well_formed(&Submission { op, ..s }), "{}", op);
        }
    }
}

#[test]
fn malformed_marks_and_lengths() {
    let good = bytes(&grant(5, 6, 7, 8));
    for at in 0..2 {
        let mut raw = good;
        raw[at] ^= 1;
        assert_eq!(read(&raw), none());
    }
    assert_eq!(read(&[]), none());
    assert_eq!(read(&good[..107]), none());
    let long = [&good[..], &[0]].concat();
    assert_eq!(read(&long), none());
    for length in [0, 107, 109] {
        let mut out = vec![7; length];
        assert_eq!(write(&grant(5, 6, 7, 8), &mut out), 3);
        assert_eq!(out, vec![7; length]);
    }
}

#[test]
fn random_bytes_agree_with_the_writer() {
    let mut dice = Dice(1);
    for _ in 0..200_000 {
        let mut raw = bytes(&one_of_each()[dice.below(OPERATIONS.len() as u64) as usize]);
        for _ in 0..=dice.below(2) {
            let at = dice.below(108) as usize;
            raw[at] = dice.pick(&[0, 1, 2, 4, 8, dice.0 & 255]) as u8;
        }
        let (answer, s) = read(&raw);
        if answer == 0 {
            assert_eq!(bytes(&s), raw);
        } else {
            assert_eq!((answer, s), none());
        }
    }
}
