//! Closing a departed crew's wallet, as a person does it.

mod tool;

use std::fs;

use milebeacon::{Envelope, Submission, ENTRY_BYTES, RECORD_BYTES};

use tool::{fails, file, output, succeeds, text, written};

/// 7 has 500 and cannot be closed; it pays all to 8, is closed, and is named some times more.
const DEPARTED: [&str; 8] = [
    "grant --admin --signer 1 --target 7 --amount 500 --now 1000",
    "close --admin --signer 1 --nonce 2 --target 7 --now 1000",
    "transfer --signer 7 --target 8 --amount 500 --now 1000",
    "freeze --admin --signer 1 --nonce 3 --target 8 --now 1000",
    "close --admin --signer 1 --nonce 2 --target 7 --now 1000",
    "grant --admin --signer 1 --nonce 4 --target 7 --amount 5 --now 1000",
    "freeze --admin --signer 1 --nonce 4 --target 7 --thaw --now 1000",
    "close --signer 1 --nonce 4 --target 8 --now 1000",
];

/// A file of these records.
fn records(name: &str) -> String {
    let path = file(name);
    for words in DEPARTED {
        let words = ["record"].into_iter().chain(words.split(' '));
        let words: Vec<&str> = words.chain(["--out", &path]).collect();
        assert_eq!(succeeds(&words), b"");
    }
    path
}

/// A recording of them.
fn recording(name: &str) -> String {
    let records = records(&format!("{name}.bin"));
    let recording = file(&format!("{name}.rec"));
    succeeds(&["run", &records, "--record", &recording]);
    recording
}

#[test]
fn a_record_is_that_of_the_crate() {
    let words = "record close --signer 1 --target 7 --now 1000 --nonce 3";
    let words: Vec<&str> = words.split(' ').collect();
    let envelope = Envelope::new(1_000, 1, 3);
    let asked = Submission::close(envelope, 7).to_record();
    assert_eq!(succeeds(&words), asked.expect("well formed"));
    let words: Vec<&str> = words.into_iter().chain(["--admin"]).collect();
    let closed = Submission::close(envelope.by_admin(), 7).to_record();
    assert_eq!(succeeds(&words), closed.expect("well formed"));
}

#[test]
fn a_closed_wallet_is_shown_as_such() {
    let shown = succeeds(&["run", &records("departed.bin")]);
    let expected = "\
1: grant: 0 settled, word 0, status 200
2: close: 42 wallet_not_empty, word 0, status 409
3: transfer: 0 settled, word 0, status 200
4: freeze: 0 settled, word 0, status 200
5: close: 0 settled, word 0, status 200
6: grant: 43 wallet_closed, word 0, status 403
7: freeze: 43 wallet_closed, word 0, status 403
8: close: 7 not_admin, word 0, status 403

wallets
  wallet  balance  locked   state  cap a payment      cap a day
       7        0       0  closed    100,000,000  1,000,000,000
       8      500       0  frozen    100,000,000  1,000,000,000

escrows: none

receipts: none

granted 500: balances 500, locked 0
clock 1000, 4 submissions in the journal
";
    assert_eq!(text(&shown), expected);
}

#[test]
fn a_closing_is_explained() {
    let shown = succeeds(&["explain", &records("explained-closing.bin")]);
    for said in [
        "admin 1 asks (nonce 2, ",
        ") to close wallet 7
   wallet_not_empty: the target's wallet has balance, locked credits or an open escrow to it (status 409)
",
        ") to close wallet 7\n   settled, word 0 (status 200)\n",
        ") to thaw wallet 7
   wallet_closed: the signer's or the target's wallet is closed (status 403)
",
    ] {
        assert!(text(&shown).contains(said), "{}", text(&shown));
    }
}

#[test]
fn a_replay_tells_where_a_closed_wallet_had_been_paid() {
    let path = recording("closed");
    let agreed = succeeds(&["replay", &path]);
    assert_eq!(text(&agreed), "all agree: 8 entries\n");

    let mut bytes = fs::read(&path).expect("a recording");
    bytes[5 * ENTRY_BYTES + RECORD_BYTES] = 0;
    let found = output(&["replay", &written("paid.rec", &bytes)]);
    assert_eq!(found.status.code(), Some(3));
    let both = "to grant 5 to wallet 7
   recorded: 0 settled, word 0, status 200
   answered: 43 wallet_closed, word 0, status 403 (the signer's or the target's wallet is closed)
agreeing before it: 5 entries; not replayed after it: 2 entries
";
    assert!(text(&found.stdout).ends_with(both));
}

#[test]
fn a_report_has_a_row_and_two_columns_more() {
    let path = recording("counted");
    let brief = succeeds(&["report", "--brief", &path]);
    let lines = "
  grant       0 settled                 1
  grant      43 wallet_closed           1
  transfer    0 settled                 1
  freeze      0 settled                 1
  freeze     43 wallet_closed           1
  close       0 settled                 1
  close       7 not_admin               1
  close      42 wallet_not_empty        1
";
    assert!(text(&brief).contains(lines), "{}", text(&brief));

    let shown = succeeds(&["report", &path]);
    let row = |number: usize| {
        let row = text(&shown).lines().nth(4 + number).expect("a row");
        row.split_whitespace().collect::<Vec<_>>().join(" ")
    };
    assert_eq!(row(0), "0 settled - 1 1 - - - - - - 1 - 1 4");
    assert_eq!(row(42), "42 wallet_not_empty - - - - - - - - - - - 1 1");
    assert_eq!(row(43), "43 wallet_closed - 1 - - - - - - - 1 - - 2");

    let csv = succeeds(&["report", "--csv", &path]);
    for line in [
        "entries,1,grant,43,wallet_closed,1\r\n",
        "entries,12,close,0,settled,1\r\n",
        "entries,12,close,42,wallet_not_empty,1\r\n",
        "entries,12,close,43,wallet_closed,0\r\n",
    ] {
        assert!(text(&csv).contains(line), "{}", text(&csv));
    }
}

#[test]
fn help_says_which_wallets_can_be_closed_and_what_then() {
    let said = |operation: &str| {
        let shown = succeeds(&["record", operation, "--help"]);
        let words: Vec<&str> = text(&shown).split_whitespace().collect();
        words.join(" ")
    };
    let shown = said("close");
    for line in [
        "Only an empty wallet can be closed.",
        "is answered 42 wallet_not_empty, also if that escrow is past its deadline",
        "another close too, is answered 43 wallet_closed.",
    ] {
        assert!(shown.contains(line), "{shown}");
    }
    for operation in ["grant", "freeze", "caps"] {
        let line = "If the wallet is closed, the answer is 43 wallet_closed.";
        assert!(said(operation).contains(line), "{operation}");
    }
    for operation in ["transfer", "open", "claim"] {
        let line = "signer's or the target's wallet is closed, the answer is 43 wallet_closed.";
        assert!(said(operation).contains(line), "{operation}");
    }
    for operation in ["release", "refund", "accept", "dispute", "sweep"] {
        assert!(!said(operation).contains("43"), "{operation}");
    }
    let shown = succeeds(&["record", "--help"]);
    let line = "\n  close     Closes an empty wallet for good, by an admin\n";
    assert!(text(&shown).contains(line), "{}", text(&shown));
}

#[test]
fn bad_commands_get_one_line() {
    let cases = [
        ("record close --signer 1", 2, "--target"),
        ("record close --target 7", 2, "--signer"),
        (
            "record close --signer 1 --target 7 --amount 5",
            2,
            "--amount",
        ),
        ("record close --signer 1 --target 7 --thaw", 2, "--thaw"),
        ("record close --signer 0 --target 7", 1, "the signer is 0"),
        ("record clsoe", 2, "Did you mean 'close'"),
    ];
    for (words, status, said) in cases {
        let words: Vec<&str> = words.split(' ').collect();
        assert_eq!(fails(&words, status, said), b"", "{words:?}");
    }
}
