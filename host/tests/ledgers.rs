//! Ledgers over owned and borrowed tables, their rows, and tables that are no ledger.

use milebeacon::{
    lookup, Answer, Envelope, EscrowNumber, EscrowRow, EscrowState, Freezable, Ledger,
    ReceiptNumber, Refusal, Sizes, Submission, Tables, WalletState,
};

const NOW: u64 = 1_700_000_000_000;

fn admin(nonce: u64) -> Envelope {
    Envelope::new(NOW, 1, nonce).by_admin()
}

/// Two wallets and an open escrow.
fn busy() -> Ledger {
    let mut ledger = Ledger::new(Sizes::PROGRAM).expect("right sizes");
    let open = Submission::open(Envelope::new(NOW, 7, 1), 8, 20, NOW + 1_000);
    for submission in [Submission::grant(admin(1), 7, 50), open] {
        assert!(ledger.settle(&submission).is_settled());
    }
    ledger
}

#[test]
fn rows_are_the_callers_own() {
    let ledger = busy();
    let escrow = ledger.escrow(EscrowNumber(1)).expect("the escrow");
    assert_eq!(escrow.words(), &[7, 8, 20, NOW + 1_000, 1, NOW, 0, 0]);
    assert_eq!(escrow.state(), Some(EscrowState::Open));
    assert!(std::ptr::eq(
        &escrow.words()[0],
        &ledger.tables().escrows[0]
    ));
    assert!(!escrow.is_stale(NOW + 1_000) && escrow.is_stale(NOW + 1_001));
    assert_eq!(ledger.escrow(EscrowNumber(0)), None);
    assert_eq!(ledger.escrow(EscrowNumber(2)), None);
    assert_eq!(ledger.receipt(ReceiptNumber(1)), None);
    assert_eq!(ledger.wallet(9), WalletState::Missing);
    let ids: Vec<u64> = ledger.wallets().map(|wallet| wallet.id()).collect();
    assert_eq!(ids, [7, 8]);
    let settled: Vec<u64> = ledger.journal().map(|row| row.operation_word()).collect();
    assert_eq!(settled, [1, 3]);
}

#[test]
fn borrowed_tables_stay_with_their_owner() {
    let mut tables = busy().into_tables();
    let mut ledger = Ledger::over(tables.as_mut());
    assert!(ledger.is_sound());
    let freeze = Submission::freeze(admin(2), Freezable::System, true);
    assert_eq!(ledger.settle(&freeze), Answer::Settled(0));
    assert!(ledger.is_frozen());
    assert_eq!(tables.header[1], 1);
    let reader = Ledger::over(tables.as_ref());
    assert_eq!((reader.last_clock(), reader.granted_total()), (NOW, 50));
}

#[test]
fn tables_that_are_no_ledger_are_refused() {
    let empty = Sizes {
        wallets: 0,
        ..Sizes::PROGRAM
    };
    assert_eq!(Ledger::new(empty), Err(Refusal::BadTable));
    let vast = Sizes {
        wallets: 1_025,
        ..Sizes::LARGEST
    };
    assert_eq!(Ledger::new(vast), Err(Refusal::BadTable));

    let mut tables = busy().into_tables();
    tables.wallets[1] += 1;
    let mut damaged = Ledger::over(tables.clone());
    assert!(!damaged.is_sound());
    let sweep = Submission::sweep(NOW, 1);
    assert_eq!(
        damaged.settle(&sweep),
        Answer::Refused(Refusal::LedgerDamaged)
    );
    assert_eq!(damaged.into_tables(), tables);

    tables.journal.pop();
    let mut torn = Ledger::over(tables);
    assert_eq!(torn.settle(&sweep), Answer::Refused(Refusal::BadTable));
    assert_eq!(torn.start_afresh(), Err(Refusal::BadTable));
}

#[test]
fn fields_without_a_record_are_refused_as_malformed_and_after_the_tables() {
    let nobody = Submission::transfer(Envelope::new(NOW, 0, 1), 8, 5);
    assert_eq!(
        busy().settle(&nobody),
        Answer::Refused(Refusal::MalformedRecord)
    );
    let mut tables = busy().into_tables();
    tables.header[0] = 2;
    let answer = Ledger::over(tables).settle(&nobody);
    assert_eq!(answer, Answer::Refused(Refusal::LedgerDamaged));
}

#[test]
fn views_of_damaged_tables_say_what_stands_there() {
    let Tables {
        header,
        mut escrows,
        ..
    } = busy().into_tables();
    escrows[4] = 9;
    let row = lookup::escrow_row(&header, &escrows, EscrowNumber(1)).expect("written");
    assert_eq!((row.state(), row.state_word()), (None, 9));
    assert_eq!(EscrowRow::new(&escrows[..7]), None);
    let shown = format!("{row:?}");
    assert!(
        shown.starts_with("EscrowRow { from: 7, to: 8, amount: 20,"),
        "{shown}"
    );
}
