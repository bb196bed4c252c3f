//! Records of every operation, and what the constructors leave out.

use milebeacon::{
    Claim, Envelope, EscrowNumber, Freezable, Operation, ReceiptNumber, Refusal, Submission,
    RECORD_BYTES,
};

const NOW: u64 = 1_700_000_000_000;

/// The numbers of their operations: both replies are 7.
const NUMBERS: [u8; 12] = [1, 2, 3, 4, 5, 6, 7, 7, 9, 10, 11, 12];

fn every_operation(envelope: Envelope) -> [Submission; 12] {
    let claim = Claim {
        requester: 8,
        until: NOW + 300_000,
        escrow: None,
        hash: [3; 32],
        auto_accept: true,
    };
    [
        Submission::grant(envelope, 8, 5),
        Submission::transfer(envelope, 8, 5),
        Submission::open(envelope, 8, 5, NOW + 1),
        Submission::release(envelope, EscrowNumber(1)),
        Submission::refund(envelope, EscrowNumber(1)),
        Submission::claim(envelope, claim),
        Submission::accept(envelope, ReceiptNumber(1)),
        Submission::dispute(envelope, ReceiptNumber(1), true),
        Submission::sweep(NOW, 5),
        Submission::freeze(envelope, Freezable::Wallet(8), true),
        Submission::caps(envelope, 8, 5, 6),
        Submission::close(envelope, 8),
    ]
}

#[test]
fn every_constructor_makes_a_well_formed_record_whoever_signs() {
    let envelope = Envelope::new(NOW, 7, 1);
    let envelopes = [
        envelope,
        envelope.by_admin(),
        envelope.unsigned(),
        envelope.by_admin().unsigned(),
    ];
    for envelope in envelopes {
        for (submission, number) in every_operation(envelope).iter().zip(NUMBERS) {
            let operation = submission.operation().map(Operation::number);
            assert_eq!((submission.op, operation), (number, Some(number)));
            let record = submission.to_record().expect("well formed");
            assert_eq!(Submission::read(&record), Ok(*submission));
            assert_eq!(Submission::try_from(&record[..]), Ok(*submission));
        }
    }
}

#[test]
fn only_operations_that_ask_carry_the_admin_bit() {
    let by_admin = every_operation(Envelope::new(NOW, 1, 1).by_admin());
    let carrying: Vec<u8> = by_admin
        .iter()
        .filter(|submission| submission.has(Submission::ADMIN))
        .map(|submission| submission.op)
        .collect();
    assert_eq!(carrying, [1, 4, 5, 10, 11, 12]);
}

#[test]
fn a_close_uses_its_target_and_the_admin_bit_and_nothing_else() {
    let close = Submission::close(Envelope::new(NOW, 1, 4).by_admin(), 8);
    let fields = Submission {
        op: 12,
        flags: Submission::SIGNED | Submission::ADMIN,
        now: NOW,
        signer: 1,
        nonce: 4,
        issued: NOW,
        expires: NOW + 60_000,
        target: 8,
        ..Submission::default()
    };
    assert_eq!(close, fields);
    let record = close.to_record().expect("well formed");
    assert_eq!(record[..4], [0xA7, 0x3C, 12, 3]);
    assert_eq!(record[44..52], [8, 0, 0, 0, 0, 0, 0, 0]);

    // bits 2 to 7, and the words and bytes behind the target
    for bit in 2..8 {
        let mut torn = record;
        torn[3] |= 1 << bit;
        assert_eq!(Submission::read(&torn), Err(Refusal::MalformedRecord));
    }
    for place in 52..RECORD_BYTES {
        let mut torn = record;
        torn[place] = 1;
        assert_eq!(Submission::read(&torn), Err(Refusal::MalformedRecord));
    }
    let nobody = Submission { signer: 0, ..close };
    assert_eq!(nobody.to_record(), Err(Refusal::MalformedRecord));
    // any target is well formed, and so is one that is not there
    let system = Submission { target: 0, ..close };
    assert!(system.to_record().is_ok());
}

#[test]
fn a_hash_comes_back_byte_for_byte() {
    let mut hash = [0; 32];
    for (place, byte) in hash.iter_mut().enumerate() {
        *byte = place as u8 + 1;
    }
    let claim = Claim {
        requester: 8,
        until: NOW,
        escrow: Some(EscrowNumber(2)),
        hash,
        auto_accept: false,
    };
    let submission = Submission::claim(Envelope::new(NOW, 7, 1), claim);
    assert_eq!(submission.hash[0], 0x0807_0605_0403_0201);
    assert_eq!(submission.hash_bytes(), hash);
    let record = submission.to_record().expect("well formed");
    assert_eq!(record[76..], hash);
}

#[test]
fn a_malformed_submission_leaves_the_output_as_it_was() {
    let mut out = [0xEE; RECORD_BYTES];
    let mut nobody = Submission::transfer(Envelope::new(NOW, 0, 1), 8, 5);
    assert_eq!(nobody.write(&mut out), Err(Refusal::MalformedRecord));
    nobody.signer = 7;
    assert_eq!(nobody.write(&mut out[..107]), Err(Refusal::MalformedRecord));
    assert_eq!(out, [0xEE; RECORD_BYTES]);
    assert_eq!(nobody.write(&mut out), Ok(()));
    assert_eq!(out[..4], [0xA7, 0x3C, 2, 1]);
}
