//! The checked cases P1 to P12 of the rules, through the crate.

use milebeacon::{
    Answer, Claim, Envelope, EscrowNumber, Ledger, ReceiptNumber, ReceiptState, Refusal, Sizes,
    Submission,
};

const NOW: u64 = 1_700_000_000_000;
const HOUR: u64 = 3_600_000;
const WEEK: u64 = 604_800_000;

fn fresh() -> Ledger {
    Ledger::new(Sizes::PROGRAM).expect("the program's sizes are right")
}

/// P1.
fn granted() -> Ledger {
    let mut ledger = fresh();
    let grant = Submission::grant(Envelope::new(NOW, 1, 1).by_admin(), 7, 50_000_000);
    assert_eq!(ledger.settle(&grant), Answer::Settled(0));
    ledger
}

fn open(until: u64) -> Submission {
    Submission::open(Envelope::new(NOW, 7, 1), 8, 20_000_000, until)
}

/// P2.
fn opened() -> Ledger {
    let mut ledger = granted();
    assert_eq!(ledger.settle(&open(NOW + HOUR)), Answer::Settled(1));
    ledger
}

fn release(now: u64, nonce: u64) -> Submission {
    Submission::release(Envelope::new(now, 7, nonce), EscrowNumber(1))
}

fn has(ledger: &Ledger, id: u64) -> (u64, u64) {
    let wallet = ledger.wallet(id).live().expect("a live wallet");
    (wallet.balance(), wallet.locked())
}

#[test]
fn p1_to_p3_grant_open_and_retry() {
    assert_eq!(has(&granted(), 7), (50_000_000, 0));
    let mut ledger = opened();
    assert_eq!(has(&ledger, 7), (30_000_000, 20_000_000));
    let before = ledger.clone();
    assert_eq!(
        ledger.settle(&open(NOW + HOUR)),
        Answer::Refused(Refusal::NonceSeen)
    );
    assert_eq!(ledger, before);
    assert_eq!(ledger.granted_total(), 50_000_000);
    assert_eq!(ledger.balance_total() + ledger.locked_total(), 50_000_000);
}

#[test]
fn p4_to_p6_release_at_the_deadline_after_it_and_twice() {
    let mut ledger = opened();
    assert_eq!(ledger.settle(&release(NOW + HOUR, 2)), Answer::Settled(0));
    assert_eq!(has(&ledger, 8), (20_000_000, 0));
    assert_eq!(
        ledger.settle(&release(NOW + HOUR, 3)),
        Answer::Refused(Refusal::EscrowNotOpen)
    );
    let mut late = opened();
    assert_eq!(
        late.settle(&release(NOW + HOUR + 1, 2)),
        Answer::Refused(Refusal::EscrowNotOpen)
    );
}

#[test]
fn p7_amounts_of_a_transfer() {
    let mut ledger = granted();
    let most = 1_000_000_000_000_000;
    let mut transfer = |amount| {
        let envelope = Envelope::new(NOW, 7, 1);
        ledger
            .settle(&Submission::transfer(envelope, 8, amount))
            .number()
    };
    assert_eq!([0, most, most + 1].map(&mut transfer), [12, 17, 12]);
}

#[test]
fn p8_and_p9_windows() {
    let answer = |issued, expires| {
        let envelope = Envelope::new(NOW, 7, 1).window(issued, expires);
        granted()
            .settle(&Submission::transfer(envelope, 8, 1))
            .number()
    };
    assert_eq!(answer(NOW + 30_000, NOW + 60_000), 0);
    assert_eq!(answer(NOW + 30_001, NOW + 60_000), 8);
    assert_eq!(answer(NOW, NOW + HOUR), 0);
    assert_eq!(answer(NOW, NOW + HOUR + 1), 10);
}

#[test]
fn p10_deadlines_of_an_open() {
    let answer = |until| granted().settle(&open(until)).number();
    let untils = [NOW, NOW + 1, NOW + WEEK, NOW + WEEK + 1];
    assert_eq!(untils.map(answer), [20, 0, 0, 21]);
}

#[test]
fn p11_two_claims_on_one_escrow() {
    let mut ledger = opened();
    for nonce in [1, 2] {
        let claim = Claim {
            requester: 7,
            until: NOW + HOUR,
            escrow: Some(EscrowNumber(1)),
            hash: [nonce as u8; 32],
            auto_accept: false,
        };
        let claimed = ledger.settle(&Submission::claim(Envelope::new(NOW, 8, nonce), claim));
        assert_eq!(claimed, Answer::Settled(nonce));
    }
    let mut accept = |receipt, nonce| {
        let envelope = Envelope::new(NOW, 7, nonce);
        ledger.settle(&Submission::accept(envelope, ReceiptNumber(receipt)))
    };
    assert_eq!(accept(1, 2), Answer::Settled(1));
    assert_eq!(accept(2, 3), Answer::Settled(0));
    let receipts: Vec<_> = ledger
        .receipts()
        .map(|receipt| (receipt.state(), receipt.release_code()))
        .collect();
    let accepted = Some(ReceiptState::Accepted);
    assert_eq!(receipts, [(accepted, 0), (accepted, 29)]);
    assert_eq!(has(&ledger, 8), (20_000_000, 0));
}

#[test]
fn p12_sweeps() {
    let mut ledger = granted();
    for nonce in [1, 2] {
        let open = Submission::open(Envelope::new(NOW, 7, nonce), 8, 5, NOW + 10);
        assert_eq!(ledger.settle(&open), Answer::Settled(nonce));
    }
    let mut sweep = |_| ledger.settle(&Submission::sweep(NOW + 11, 1)).word();
    assert_eq!([1, 2, 3].map(&mut sweep), [1, 1, 0]);
    assert_eq!(has(&ledger, 7), (50_000_000, 0));
}
