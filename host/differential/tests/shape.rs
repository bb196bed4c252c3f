//! What a record is by its faults is what the paper says, and what the second program takes it for.

use differential::coded::{decided, Call};
use differential::record::encode;
use differential::shape::{faults, Fault, Looks};
use milebeacon::{Envelope, ReceiptNumber, Reply, Submission};
use second::Form;

const NOW: u64 = 1_000_000_000;

fn by(signer: u64) -> Envelope {
    Envelope::new(NOW, signer, 99)
}

fn accept() -> Submission {
    Submission::accept(by(7), ReceiptNumber(1))
}

fn dispute(reason: bool) -> Submission {
    Submission::dispute(by(7), ReceiptNumber(1), reason)
}

fn with_flags(flags: u8, submission: Submission) -> Submission {
    Submission {
        flags,
        ..submission
    }
}

fn by_operation_8(submission: Submission) -> Submission {
    Submission {
        op: 8,
        ..submission
    }
}

#[test]
fn the_codec_is_told_by_what_it_was_given() {
    let told = |call, submission: Submission, answer| {
        decided(call, &encode(&submission), answer).join("\n")
    };
    let bare = dispute(false);
    assert_eq!(told(Call::Written, accept(), 0), "written: accept");
    let read = told(Call::Read, dispute(true), 0);
    assert_eq!(read, "read: dispute with a reason");
    let read = told(Call::Read, bare, 0);
    assert_eq!(read, "read: dispute without a reason");
    let both = with_flags(0b1101, bare);
    let refused = told(Call::Written, both, 3);
    assert_eq!(refused, "not written: accept with a reason");
    let refused = told(Call::Read, by_operation_8(bare), 3);
    assert_eq!(refused, "not read: operation 8, flags 0001");
    assert_eq!(told(Call::Read, Submission::sweep(NOW, 1), 0), "");
}

#[test]
fn a_record_is_malformed_in_each_way_by_itself() {
    let of = |form, submission: Submission| faults(form, &encode(&submission));
    let right = accept();
    assert_eq!(of(Form::New, right), []);
    assert_eq!(of(Form::Old, right), [Fault::Flags]);
    assert_eq!(of(Form::Old, with_flags(1, right)), []);
    let disputed = dispute(true);
    assert_eq!(of(Form::New, disputed), []);
    assert_eq!(of(Form::Old, disputed), [Fault::Flags]);
    assert_eq!(of(Form::New, by_operation_8(disputed)), [Fault::Operation]);
    assert_eq!(of(Form::Old, by_operation_8(disputed)), []);
    let cases: [(fn(&mut Submission), Fault); 9] = [
        (|s| s.op = 13, Fault::Operation),
        (|s| s.flags |= 0b10, Fault::Flags),
        (|s| s.amount = 1, Fault::Unused),
        (|s| s.until = 1, Fault::Unused),
        (|s| s.link = 1, Fault::Unused),
        (|s| s.hash[3] = 1, Fault::Unused),
        (|s| s.signer = 0, Fault::Signer),
        (|s| s.now = 1 << 48, Fault::Time),
        (|s| s.expires = s.issued - 1, Fault::Window),
    ];
    for (change, fault) in cases {
        let mut submission = right;
        change(&mut submission);
        assert_eq!(of(Form::New, submission), [fault]);
    }
    let mut record = encode(&right);
    record[1] ^= 1;
    assert_eq!(faults(Form::New, &record), [Fault::Mark]);
    assert_eq!(faults(Form::New, &record[1..]), [Fault::Length]);
    assert_eq!(Looks::of(&record), None);
    assert_eq!(
        Looks::of(&encode(&right)),
        Some(Looks::Reply(Reply::Accept))
    );
}

#[test]
fn what_is_malformed_by_its_faults_is_so_to_the_second_program() {
    let bases = [Submission::grant(by(7), 0, 0), Submission::sweep(NOW, 1)];
    for base in bases {
        for (op, flags) in (0..=20).flat_map(|op| (0..=31).map(move |flags| (op, flags))) {
            let right = encode(&Submission { op, flags, ..base });
            // as it is, and with each of the words in turn another, or one beyond the last time
            for place in 0..14 {
                for bytes in [[7, 0], [0, 1]] {
                    let mut record = right;
                    if place < 13 {
                        record[4 + 8 * place] ^= bytes[0];
                        record[4 + 8 * place + 6] ^= bytes[1];
                    }
                    for form in [Form::Old, Form::New] {
                        let is_read = second::read_in(form, &record).0 == 0;
                        let faults = faults(form, &record);
                        assert_eq!(is_read, faults.is_empty(), "{record:?}: {faults:?}");
                    }
                }
            }
        }
    }
}
