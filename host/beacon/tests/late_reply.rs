//! A reply after the acceptance deadline, as a person meets it.

mod tool;

use std::fs;

use milebeacon::{ENTRY_BYTES, RECORD_BYTES};

use tool::{file, output, succeeds, text, written};

/// A hold of 7 for 8, and a claim on it that can be replied to until 301000.
const CLAIMED: [&str; 3] = [
    "grant --admin --signer 1 --target 7 --amount 500 --now 1000",
    "open --signer 7 --target 8 --amount 100 --now 1000 --until 400000",
    "claim --signer 8 --target 7 --link 1 --now 1000 --until 301000",
];

/// A dispute that gives no reason, in time; all replies too late; and a sweep.
const LATE: [&str; 5] = [
    "dispute --signer 7 --nonce 2 --target 1 --now 301000",
    "dispute --signer 7 --nonce 2 --target 1 --now 301001",
    "dispute --signer 7 --nonce 2 --target 1 --reason --now 301001",
    "accept --signer 7 --nonce 2 --target 1 --now 301001",
    "sweep --limit 10 --now 301001",
];

/// A file of these records.
fn records(name: &str, operations: &[&str]) -> String {
    let path = file(name);
    for words in CLAIMED.iter().chain(operations) {
        let words = ["record"].into_iter().chain(words.split(' '));
        let words: Vec<&str> = words.chain(["--out", &path]).collect();
        assert_eq!(succeeds(&words), b"");
    }
    path
}

/// A recording of them.
fn recording(name: &str, operations: &[&str]) -> String {
    let records = records(&format!("{name}.bin"), operations);
    let recording = file(&format!("{name}.rec"));
    succeeds(&["run", &records, "--record", &recording]);
    recording
}

#[test]
fn a_late_reply_is_answered_and_the_receipt_stays_pending() {
    let shown = succeeds(&["run", &records("late", &LATE[..4])]);
    let answers = "\
4: dispute: 35 dispute_reason_required, word 0, status 400
5: dispute: 41 acceptance_closed, word 0, status 409
6: dispute: 41 acceptance_closed, word 0, status 409
7: accept: 41 acceptance_closed, word 0, status 409
";
    assert!(text(&shown).contains(answers), "{}", text(&shown));
    let pending = "
receipts
  receipt  provider  requester  escrow  deadline  auto    state  claimed  closed  by  code
        1         8          7       1    301000    no  pending     1000       -   -     -
";
    assert!(text(&shown).contains(pending), "{}", text(&shown));

    let shown = succeeds(&["run", &records("swept", &LATE)]);
    let sweep = "\n8: sweep: 0 settled, word 1, status 200\n";
    assert!(text(&shown).contains(sweep), "{}", text(&shown));
    let expired = "    301000    no  expired     1000  301001   -     -\n";
    assert!(text(&shown).contains(expired), "{}", text(&shown));
}

#[test]
fn a_late_reply_is_explained() {
    let shown = succeeds(&["explain", &records("explained-late", &LATE)]);
    let expected = "to dispute receipt 1, with a reason
   acceptance_closed: the receipt is past its acceptance deadline (status 409)
";
    assert!(text(&shown).contains(expected), "{}", text(&shown));
}

#[test]
fn a_replay_tells_where_a_late_reply_had_settled() {
    let path = recording("replayed", &LATE);
    assert_eq!(
        text(&succeeds(&["replay", &path])),
        "all agree: 8 entries\n"
    );

    let mut bytes = fs::read(&path).expect("a recording");
    let answer = 6 * ENTRY_BYTES + RECORD_BYTES;
    bytes[answer..answer + 2].copy_from_slice(&[0, 1]); // it released escrow 1
    let found = output(&["replay", &written("settled.rec", &bytes)]);
    assert_eq!(found.status.code(), Some(3));
    let both = "to accept receipt 1
   recorded: 0 settled, word 1, status 200
   answered: 41 acceptance_closed, word 0, status 409 (the receipt is past its acceptance deadline)
agreeing before it: 6 entries; not replayed after it: 1 entry
";
    assert!(text(&found.stdout).ends_with(both));
}

#[test]
fn a_report_has_late_replies_by_their_number() {
    let path = recording("reported", &LATE);
    let brief = succeeds(&["report", "--brief", &path]);
    let lines = "
  reply      35 dispute_reason_required        1
  reply      41 acceptance_closed              3
";
    assert!(text(&brief).contains(lines), "{}", text(&brief));

    let shown = succeeds(&["report", &path]);
    let row = text(&shown).lines().nth(4 + 41).expect("a row");
    let row: Vec<&str> = row.split_whitespace().collect();
    assert_eq!(
        row.join(" "),
        "41 acceptance_closed - - - - - - - 3 - - - - 3"
    );

    let csv = succeeds(&["report", "--csv", &path]);
    let line = "\r\nentries,7,reply,41,acceptance_closed,3\r\n";
    assert!(text(&csv).contains(line), "{}", text(&csv));
}

#[test]
fn help_says_until_when_a_reply_is_taken() {
    for operation in ["accept", "dispute"] {
        let shown = succeeds(&["record", operation, "--help"]);
        let words: Vec<&str> = text(&shown).split_whitespace().collect();
        let said = "The last moment for a reply is the receipt's acceptance deadline. \
                    A later one is answered 41 acceptance_closed";
        assert!(words.join(" ").contains(said), "{}", text(&shown));
    }
    let shown = succeeds(&["record", "claim", "--help"]);
    assert!(text(&shown).contains("the last moment for a reply"));
}
