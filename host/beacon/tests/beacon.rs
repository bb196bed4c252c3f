//! The tool as a person uses it: words in, files and lines out.

mod tool;

use std::collections::BTreeSet;
use std::fs;
use std::io::Write;
use std::process::Stdio;

use milebeacon::{Claim, Envelope, EscrowNumber, Operation, Reply, Submission, RECORD_BYTES};

use tool::{beacon, fails, file, first_records, succeeds, text};

#[test]
fn records_are_those_of_the_crate() {
    let words = "record open --signer 7 --target 8 --amount 20 --now 1000 --until 2000 --nonce 3";
    let record = succeeds(&words.split(' ').collect::<Vec<_>>());
    let open = Submission::open(Envelope::new(1_000, 7, 3), 8, 20, 2_000);
    assert_eq!(record, open.to_record().expect("well formed"));

    let hash = "0102030405060708090a0b0c0d0e0f101112131415161718191a1b1c1d1e1f20";
    let words =
        "record claim --signer 8 --target 7 --now 1000 --issued 900 --expires 5000 --link 2 \
                 --until 400000 --auto-accept --unsigned --hash";
    let words: Vec<&str> = words.split(' ').chain([hash]).collect();
    let mut bytes = [0; 32];
    for (place, byte) in bytes.iter_mut().enumerate() {
        *byte = place as u8 + 1;
    }
    let claim = Claim {
        requester: 7,
        until: 400_000,
        escrow: Some(EscrowNumber(2)),
        hash: bytes,
        auto_accept: true,
    };
    let envelope = Envelope::new(1_000, 8, 1).window(900, 5_000).unsigned();
    let claim = Submission::claim(envelope, claim).to_record();
    assert_eq!(succeeds(&words), claim.expect("well formed"));
}

#[test]
fn every_operation_writes_a_record() {
    let operations = [
        "grant --signer 1 --target 7 --amount 5 --admin",
        "transfer --signer 1 --target 7 --amount 5",
        "open --signer 1 --target 7 --amount 5",
        "release --signer 1 --target 7",
        "refund --signer 1 --target 7 --admin",
        "claim --signer 1 --target 7",
        "accept --signer 1 --target 7",
        "dispute --signer 1 --target 7 --reason",
        "sweep --limit 5",
        "freeze --signer 1 --target 0 --admin",
        "caps --signer 1 --target 7 --amount 5 --daily 6 --admin",
        "close --signer 1 --target 7 --admin",
    ];
    let mut written = BTreeSet::new();
    for words in operations {
        let words: Vec<&str> = ["record"].into_iter().chain(words.split(' ')).collect();
        let record = succeeds(&words);
        let read = Submission::read(&record).expect("well formed");
        written.insert(read.operation());
        // a reply is written by its own name
        let name = read.operation().map(Operation::name);
        assert_eq!(read.reply().map(Reply::name).or(name), Some(words[1]));
    }
    assert_eq!(written.len(), Operation::ALL.len());
}

#[test]
fn a_first_record_settles_and_its_retry_does_not() {
    let path = first_records("first");
    let shown = succeeds(&["run", &path]);
    let expected = "\
1: grant: 0 settled, word 0, status 200
2: open: 0 settled, word 1, status 200
3: open: 11 nonce_seen, word 0, status 409

wallets
  wallet     balance      locked  state  cap a payment      cap a day
       7  30,000,000  20,000,000   live    100,000,000  1,000,000,000
       8           0           0   live    100,000,000  1,000,000,000

escrows
  escrow  from  to      amount  deadline  state  opened  closed  by
       1     7   8  20,000,000      2000   open    1000       -   -

receipts: none

granted 50,000,000: balances 30,000,000, locked 20,000,000
clock 1000, 2 submissions in the journal
";
    assert_eq!(text(&shown), expected);
}

#[test]
fn records_are_explained_with_their_answers() {
    let path = first_records("explained");
    let shown = succeeds(&["explain", &path]);
    let expected = "\
1: at 1000, admin 1 asks (nonce 1, issued 1000, expires 61000) to grant 50,000,000 to wallet 7
   settled, word 0 (status 200)
2: at 1000, 7 asks (nonce 1, issued 1000, expires 61000) to open an escrow of 20,000,000 for wallet 8 until 2000
   settled, word 1 (status 200)
3: at 1000, 7 asks (nonce 1, issued 1000, expires 61000) to open an escrow of 20,000,000 for wallet 8 until 2000
   nonce_seen: a record with this signer and nonce has settled before (status 409)
";
    // each moment has its date beside it
    let dates = [
        ("1000", "00:00:01"),
        ("2000", "00:00:02"),
        ("61000", "00:01:01"),
    ];
    let mut undated = text(&shown).to_owned();
    for (ms, time) in dates {
        let dated = format!(" {ms} [1970-01-01 {time}.000 UTC]");
        assert!(undated.contains(&dated), "{undated}");
        undated = undated.replace(&dated, &format!(" {ms}"));
    }
    assert_eq!(undated, expected);
}

#[test]
fn a_short_last_piece_is_told_and_nothing_is_lost() {
    let path = first_records("short");
    let mut bytes = fs::read(&path).expect("the file");
    bytes.extend_from_slice(&[0xA7, 0x3C, 3]);
    fs::write(&path, &bytes).expect("written");

    let shown = fails(&["run", &path], 1, "short piece of 3 bytes");
    let shown = text(&shown);
    assert!(
        shown.contains("\n4: open: 3 malformed_record, word 0, status 400\n"),
        "{shown}"
    );
    assert!(shown.contains("granted 50,000,000"), "{shown}");
    let shown = fails(&["explain", &path], 1, "1 of 4 records are malformed");
    assert!(text(&shown).contains("4: a short last piece of 3 bytes\n"));

    // A record added behind it would be read as a part of it.
    let words = ["record", "sweep", "--amount", "5", "--out", &path];
    fails(&words, 1, "nothing was added");
    assert_eq!(fs::read(&path).expect("the file"), bytes);
}

#[test]
fn standard_input_is_a_file_too() {
    let path = first_records("piped");
    let mut child = beacon(&["run", "-"])
        .stdin(Stdio::piped())
        .stdout(Stdio::piped())
        .spawn()
        .expect("the tool runs");
    let bytes = fs::read(&path).expect("the file");
    assert_eq!(bytes.len(), 3 * RECORD_BYTES);
    child
        .stdin
        .take()
        .expect("a pipe")
        .write_all(&bytes)
        .expect("written");
    let piped = child.wait_with_output().expect("it ends");
    assert_eq!(piped.stdout, succeeds(&["run", &path]));
    let empty = file("empty");
    fs::write(&empty, b"").expect("written");
    assert!(text(&succeeds(&["run", &empty])).starts_with("\nwallets: none\n"));
}

#[test]
fn bad_input_gets_one_line() {
    let open = "record open --signer 7 --target 8 --amount 3";
    let cases = [
        ("", 2, "say record, explain, run, replay, report or convert"),
        ("record", 2, "grant, transfer, open"),
        ("record opn", 2, "Did you mean 'open'"),
        ("record open --signer 7 --target 8", 2, "--amount"),
        ("record open --signer 7 --target x --amount 3", 2, "'x'"),
        (
            "record transfer --signer 7 --target 8 --amount 3 --admin",
            2,
            "--admin",
        ),
        (
            "record claim --signer 7 --target 8 --hash 12",
            2,
            "64 hex digits",
        ),
        ("record sweep --signer 7 --limit 3", 2, "--signer"),
        (
            "record open --signer 0 --target 8 --amount 3",
            1,
            "the signer is 0",
        ),
        (
            "record sweep --now 281474976710656 --limit 3",
            1,
            "after the last time",
        ),
        ("run no-such-file", 1, "cannot read no-such-file"),
        ("explain no-such-file", 1, "cannot read no-such-file"),
    ];
    for (words, status, said) in cases {
        let words: Vec<&str> = words.split(' ').filter(|word| !word.is_empty()).collect();
        assert_eq!(fails(&words, status, said), b"", "{words:?}");
    }
    let late = format!("{open} --issued 9 --expires 8");
    let words: Vec<&str> = late.split(' ').collect();
    fails(&words, 1, "it expires at 8, before it is issued at 9");
}

#[test]
fn help_is_no_problem() {
    for words in [
        &["--help"][..],
        &["record", "--help"],
        &["record", "open", "--help"],
        &["run", "--help"],
    ] {
        assert!(text(&succeeds(words)).contains("Usage: beacon"));
    }
}
