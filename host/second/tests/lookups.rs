//! Section "Row lookups".

use second::{escrow_row, receipt_row, wallet_row, FoundWallet};
use FoundWallet::{Closed, Live, Missing};

const HEADER: [u64; 8] = [9, 9, 9, 9, 3, 2, 1, 9];
const EMPTY: [u64; 0] = [];

#[test]
fn escrows_and_receipts_are_the_very_row() {
    let escrows: Vec<u64> = (0..24).collect();
    let receipts: Vec<u64> = (0..28).collect();
    let second = escrow_row(&HEADER, &escrows, 2);
    assert_eq!(second, [8, 9, 10, 11, 12, 13, 14, 15]);
    assert!(std::ptr::eq(second, &escrows[8..16]));
    let first = receipt_row(&HEADER, &receipts, 1);
    assert!(std::ptr::eq(first, &receipts[..14]));
    for number in [0, 3, 4, u64::MAX] {
        assert_eq!(escrow_row(&HEADER, &escrows, number), EMPTY);
    }
    for number in [0, 2, 3, u64::MAX] {
        assert_eq!(receipt_row(&HEADER, &receipts, number), EMPTY);
    }
}

#[test]
fn wrong_lengths_and_counts_give_an_empty_part() {
    let escrows = [5; 24];
    assert_eq!(escrow_row(&HEADER[..7], &escrows, 1), EMPTY);
    assert_eq!(escrow_row(&[1; 9], &escrows, 1), EMPTY);
    assert_eq!(escrow_row(&[], &escrows, 1), EMPTY);
    assert_eq!(escrow_row(&HEADER, &escrows[..23], 1), EMPTY);
    assert_eq!(escrow_row(&HEADER, &escrows[..8], 1), EMPTY);
    assert_eq!(escrow_row(&HEADER, &[], 1), EMPTY);
    assert_eq!(escrow_row(&[0; 8], &escrows, 1), EMPTY);
    assert_eq!(escrow_row(&[u64::MAX; 8], &escrows, 1), EMPTY);
    let most = vec![5; 4_097 * 8];
    assert_eq!(escrow_row(&HEADER, &most, 1), EMPTY);
    assert_eq!(escrow_row(&HEADER, &most[8..], 1), [5; 8]);
    let most = vec![5; 4_097 * 14];
    assert_eq!(receipt_row(&HEADER, &most, 1), EMPTY);
    assert_eq!(receipt_row(&HEADER, &most[14..], 1), [5; 14]);
    assert_eq!(receipt_row(&HEADER, &[], 1), EMPTY);
    assert_eq!(receipt_row(&[], &[], 1), EMPTY);
}

#[test]
fn the_first_written_row_with_that_id() {
    let mut wallets = [0; 24];
    for (row, id) in [5, 0, 5, 6].iter().enumerate() {
        wallets[row * 6] = *id;
    }
    assert_eq!(wallet_row(&HEADER, &wallets, 5), Live(1));
    wallets[0] = 4;
    assert_eq!(wallet_row(&HEADER, &wallets, 5), Live(3));
    assert_eq!(wallet_row(&HEADER, &wallets, 0), Missing);
    assert_eq!(wallet_row(&HEADER, &wallets, 6), Missing);
    assert_eq!(wallet_row(&HEADER, &wallets, 7), Missing);
    assert_eq!(wallet_row(&HEADER[1..], &wallets, 5), Missing);
    assert_eq!(wallet_row(&HEADER, &wallets[..23], 5), Missing);
    assert_eq!(wallet_row(&HEADER, &wallets[..12], 4), Missing);
    assert_eq!(wallet_row(&HEADER, &[], 4), Missing);
    assert_eq!(wallet_row(&[4; 8], &wallets, 6), Live(4));
    assert_eq!(wallet_row(&[5; 8], &wallets, 6), Missing);
    assert_eq!(wallet_row(&HEADER, &vec![4; 1_025 * 6], 4), Missing);
    assert_eq!(wallet_row(&HEADER, &vec![4; 1_024 * 6], 4), Live(1));
}

/// A table with these ids and frozen words; caps and credits are of no matter.
fn with(rows: &[(u64, u64)]) -> Vec<u64> {
    rows.iter()
        .flat_map(|&(id, frozen)| [id, 2, 2, frozen, 2, 2])
        .collect()
}

#[test]
fn a_closed_wallet_is_told_from_a_missing_and_a_live_one() {
    let wallets = with(&[(5, 0), (6, 1), (7, 2), (8, 2)]);
    assert_eq!(wallet_row(&HEADER, &wallets, 5), Live(1));
    // frozen and not closed
    assert_eq!(wallet_row(&HEADER, &wallets, 6), Live(2));
    assert_eq!(wallet_row(&HEADER, &wallets, 7), Closed(3));
    // row 4 is not written by this header
    assert_eq!(wallet_row(&HEADER, &wallets, 8), Missing);
    assert_eq!(wallet_row(&[4; 8], &wallets, 8), Closed(4));
    assert_eq!(wallet_row(&[2; 8], &wallets, 7), Missing);
    assert_eq!(wallet_row(&HEADER, &wallets, 9), Missing);
}

#[test]
fn where_a_length_or_count_is_wrong_a_closed_wallet_is_missing() {
    let wallets = with(&[(7, 2), (0, 2), (8, 0)]);
    assert_eq!(wallet_row(&HEADER, &wallets, 7), Closed(1));
    assert_eq!(wallet_row(&HEADER, &wallets, 0), Missing);
    assert_eq!(wallet_row(&HEADER[1..], &wallets, 7), Missing);
    assert_eq!(wallet_row(&[3; 9], &wallets, 7), Missing);
    assert_eq!(wallet_row(&HEADER, &wallets[..17], 7), Missing);
    assert_eq!(wallet_row(&[4; 8], &wallets, 7), Missing);
    let most = with(&[(7, 2); 1_025]);
    assert_eq!(wallet_row(&HEADER, &most, 7), Missing);
    assert_eq!(wallet_row(&HEADER, &most[6..], 7), Closed(1));
}

/// No sound ledger has such rows; a lookup does not ask.
#[test]
fn the_first_row_with_the_id_decides_and_the_word_2_alone_is_closed() {
    let wallets = with(&[(7, 0), (7, 2), (8, 2)]);
    assert_eq!(wallet_row(&HEADER, &wallets, 7), Live(1));
    let wallets = with(&[(8, 1), (7, 2), (7, 0)]);
    assert_eq!(wallet_row(&HEADER, &wallets, 7), Closed(2));
    for word in [3, 4, 258, 1 << 33, u64::MAX] {
        let wallets = with(&[(8, 2), (7, word), (9, 2)]);
        assert_eq!(wallet_row(&HEADER, &wallets, 7), Live(2));
    }
}

#[test]
fn what_is_found_says_so() {
    let found = [Missing, Live(3), Closed(4)];
    assert_eq!(found.map(|f| f.is_missing()), [true, false, false]);
    assert_eq!(found.map(|f| f.is_closed()), [false, false, true]);
    let rows = found.map(|f: FoundWallet<u64>| f.live_or_closed());
    assert_eq!(rows, [None, Some(3), Some(4)]);
}
