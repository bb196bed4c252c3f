//! Section "The program".

use crate::record::RECORD_BYTES;
use crate::tables::{fresh, Tables};

/// "It reads records from standard input on a fresh ledger of 64 wallets,
/// 128 escrows, 128 receipts and 512 journal rows. One line each: ordinal,
/// answer, word. A short last piece is answered 3, word 0. Then the granted
/// total; empty input gives only that line."
pub fn run(input: &[u8]) -> String {
    let mut header = vec![0; 8];
    let mut wallets = vec![0; 64 * 6];
    let mut escrows = vec![0; 128 * 8];
    let mut receipts = vec![0; 128 * 14];
    let mut journal = vec![0; 512 * 8];
    let mut tables = Tables {
        header: &mut header,
        wallets: &mut wallets,
        escrows: &mut escrows,
        receipts: &mut receipts,
        journal: &mut journal,
    };
    fresh(&mut tables);
    let mut output = String::new();
    for (index, piece) in input.chunks(RECORD_BYTES).enumerate() {
        let (answer, word) = crate::submit(&mut tables, piece);
        output.push_str(&format!("{} {} {}\n", index + 1, answer, word));
    }
    output.push_str(&format!("total {}\n", tables.header[3]));
    output
}
