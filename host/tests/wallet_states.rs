//! Looking up a wallet tells a closed one from a missing and a live one: request 6, on lent tables.

use milebeacon::{ffi, lookup, Ledger, Sizes, Tables, WalletNumber, WalletRow, WalletState};

/// A wallet with nothing in it.
fn wallet(id: u64, frozen_word: u64) -> [u64; WalletRow::WORDS] {
    [id, 0, 0, frozen_word, 100, 1_000]
}

/// So many of the rows are written.
fn header(written: u64) -> [u64; 8] {
    [1, 0, 0, 0, written, 0, 0, 0]
}

/// Live, frozen, closed, and a closed one that is not written; with room for nothing more.
fn wallets() -> Vec<u64> {
    [wallet(7, 0), wallet(8, 1), wallet(9, 2), wallet(10, 2)].concat()
}

/// What is found, by the numbers that the archive gives and by their names.
fn state(header: &[u64], wallets: &[u64], id: u64) -> WalletState {
    let state = lookup::wallet_state(header, wallets, id);
    let (name, number) = match state {
        WalletState::Missing => (0, 0),
        WalletState::Live(WalletNumber(number)) => (1, number),
        WalletState::Closed(WalletNumber(number)) => (2, number),
    };
    let found = ffi::wallet_row(header, wallets, id);
    assert_eq!((found.state, found.number), (name, number));
    state
}

#[test]
fn a_wallet_is_missing_live_or_closed() {
    let (header, wallets) = (header(3), wallets());
    let found = [7, 8, 9, 10, 11].map(|id| state(&header, &wallets, id));
    let expected = [
        WalletState::Live(WalletNumber(1)),
        WalletState::Live(WalletNumber(2)),
        WalletState::Closed(WalletNumber(3)),
        WalletState::Missing,
        WalletState::Missing,
    ];
    assert_eq!(found, expected);
}

#[test]
fn the_first_row_with_the_id_says_which() {
    let header = header(3);
    let wallets = [wallet(7, 0), wallet(8, 2), wallet(8, 0)].concat();
    let closed = WalletState::Closed(WalletNumber(2));
    assert_eq!(state(&header, &wallets, 8), closed);
    let wallets = [wallet(7, 0), wallet(8, 0), wallet(8, 2)].concat();
    let live = WalletState::Live(WalletNumber(2));
    assert_eq!(state(&header, &wallets, 8), live);
}

#[test]
fn only_the_word_2_is_closed_and_only_the_word_1_frozen() {
    for (word, frozen, closed) in [
        (0, false, false),
        (1, true, false),
        (2, false, true),
        (3, false, false),
        (u64::MAX, false, false),
    ] {
        let words = wallet(7, word);
        let row = WalletRow::new(&words).expect("six words");
        assert_eq!(row.frozen_word(), word);
        assert_eq!((row.is_frozen(), row.is_closed()), (frozen, closed));
        let found = lookup::wallet_row(&header(1), &words, 7);
        assert_eq!((found.is_live(), found.is_closed()), (!closed, closed));
        assert_eq!(found.row(), Some(row));
    }
}

#[test]
fn there_is_none_with_id_0_or_in_tables_of_a_wrong_length_or_count() {
    let right = header(4);
    let mut wallets = wallets();
    let closed = WalletState::Closed(WalletNumber(3));
    assert_eq!(state(&right, &wallets, 9), closed);
    assert_eq!(state(&header(5), &wallets, 9), WalletState::Missing);
    assert_eq!(state(&header(u64::MAX), &wallets, 9), WalletState::Missing);
    assert_eq!(state(&right[..7], &wallets, 9), WalletState::Missing);
    let longer = [&right[..], &[0]].concat();
    assert_eq!(state(&longer, &wallets, 9), WalletState::Missing);
    assert_eq!(state(&[], &wallets, 9), WalletState::Missing);
    assert_eq!(state(&right, &[], 9), WalletState::Missing);
    assert_eq!(state(&right, &wallets[..23], 9), WalletState::Missing);

    wallets[12] = 0;
    assert_eq!(state(&right, &wallets, 0), WalletState::Missing);
    assert_eq!(
        state(&right, &wallets, 10),
        WalletState::Closed(WalletNumber(4))
    );
    let vast = vec![9; WalletRow::WORDS * (Sizes::LARGEST.wallets + 1)];
    assert_eq!(state(&right, &vast, 9), WalletState::Missing);
}

#[test]
fn a_found_row_is_the_callers_own() {
    let mut tables = Tables::zeros(Sizes::PROGRAM);
    tables.header.copy_from_slice(&header(3));
    tables.wallets[..24].copy_from_slice(&wallets());
    let ledger = Ledger::over(tables.as_ref());
    for (place, id) in [(0, 7), (6, 8), (12, 9)] {
        let row = ledger.wallet(id).row().expect("written");
        assert_eq!(row.id(), id);
        assert!(std::ptr::eq(&row.words()[0], &tables.wallets[place]));
    }
    assert_eq!(ledger.wallet(10).row(), None);
}

#[test]
fn each_case_is_asked_for_by_its_name() {
    let (header, wallets) = (header(3), wallets());
    let found = |id| lookup::wallet_row(&header, &wallets, id);
    let cases = [9, 7, 11].map(found);
    assert_eq!(cases.map(|state| state.is_closed()), [true, false, false]);
    assert_eq!(cases.map(|state| state.is_live()), [false, true, false]);
    assert_eq!(cases.map(|state| state.is_missing()), [false, false, true]);
    let ids = |row: Option<WalletRow<'_>>| row.map(|row| row.id());
    let rows = cases.map(|state| ids(state.row()));
    assert_eq!(rows, [Some(9), Some(7), None]);
    let live = cases.map(|state| ids(state.live()));
    assert_eq!(live, [None, Some(7), None]);
    let numbers = [9, 7, 11].map(|id| state(&header, &wallets, id).number());
    let expected = [Some(WalletNumber(3)), Some(WalletNumber(1)), None];
    assert_eq!(numbers, expected);
    let named = cases.map(|state| state.map(|row| row.id()));
    let expected = [
        WalletState::Closed(9),
        WalletState::Live(7),
        WalletState::Missing,
    ];
    assert_eq!(named, expected);
}
