//! `beacon report`, as a person reads it.

mod tool;

use std::fs;
use std::io::Write;
use std::process::Stdio;

use milebeacon::ENTRY_BYTES;

use tool::{beacon, busy, fails, file, output, succeeds, text, written};

const BUSY: &str = "\
11 entries in 1 recording

counts
  operation  answer                  entries
  grant       0 settled                    1
  transfer    0 settled                    2
  transfer   12 amount_out_of_range        1
  open        0 settled                    3
  open       11 nonce_seen                 1
  release     0 settled                    1
  refund      0 settled                    1
  sweep       0 settled                    1

credits
  figure       micro-credits
  granted         50,000,000
  transferred            700
  released        20,000,000
  refunded             1,000
  expired                200
";

#[test]
fn what_is_empty_is_left_out_on_request() {
    let path = busy("busy.rec");
    assert_eq!(text(&succeeds(&["report", "--brief", &path])), BUSY);

    let none = written("none.rec", b"");
    let expected = "\
0 entries in 1 recording

counts: none

credits
  figure       micro-credits
  granted                  0
  transferred              0
  released                 0
  refunded                 0
  expired                  0
";
    assert_eq!(text(&succeeds(&["report", "--brief", &none])), expected);
}

#[test]
fn many_recordings_are_one_report_each_on_a_fresh_ledger() {
    let path = busy("again-and-again.rec");
    let words = ["report", "--brief"].into_iter();
    let words: Vec<&str> = words.chain([path.as_str(); 100]).collect();
    let shown = succeeds(&words);
    let shown = text(&shown);
    assert!(shown.starts_with("1,100 entries in 100 recordings\n"));
    assert!(shown.contains("\n  open        0 settled                  300\n"));
    assert!(
        shown.contains("\n  granted      5,000,000,000\n"),
        "{shown}"
    );

    // one of them from standard input
    let mut child = beacon(&["report", &path, "-", &path])
        .stdin(Stdio::piped())
        .stdout(Stdio::piped())
        .spawn()
        .expect("the tool runs");
    let mut input = child.stdin.take().expect("a pipe");
    let bytes = fs::read(&path).expect("a recording");
    input.write_all(&bytes[..ENTRY_BYTES]).expect("written");
    drop(input);
    let found = child.wait_with_output().expect("it ends");
    assert!(text(&found.stdout).starts_with("23 entries in 3 recordings\n"));
    assert!(found.status.success());
}

#[test]
fn records_of_no_operation_have_a_row() {
    let mut bytes = vec![0; 4 * ENTRY_BYTES];
    for (place, operation) in [13, 255, 12, 8].into_iter().enumerate() {
        bytes[place * ENTRY_BYTES + 2] = operation;
    }
    let shown = succeeds(&["report", "--brief", &written("noise.rec", &bytes)]);
    let expected = "
  operation     answer               entries
  no operation   3 malformed_record        3
  close          3 malformed_record        1
";
    assert!(text(&shown).contains(expected), "{}", text(&shown));
}

#[test]
fn the_grid_has_every_operation_and_answer() {
    let path = busy("grid.rec");
    let shown = succeeds(&["report", &path]);
    let lines: Vec<&str> = text(&shown).lines().collect();
    let words = |line: &str| line.split_whitespace().map(str::to_owned).collect();
    let operations = "no operation grant transfer open release refund claim reply sweep freeze \
                      caps close entries";
    let names: Vec<String> = words(lines[3]);
    assert_eq!(names.join(" "), format!("answer {operations}"));
    let counts: [(usize, &str, &str); 8] = [
        (0, "settled", "- 1 2 3 1 1 - - 1 - - - 9"),
        (1, "bad_table", "- - - - - - - - - - - - -"),
        (11, "nonce_seen", "- - - 1 - - - - - - - - 1"),
        (12, "amount_out_of_range", "- - 1 - - - - - - - - - 1"),
        (35, "dispute_reason_required", "- - - - - - - - - - - - -"),
        (41, "acceptance_closed", "- - - - - - - - - - - - -"),
        (42, "wallet_not_empty", "- - - - - - - - - - - - -"),
        (43, "wallet_closed", "- - - - - - - - - - - - -"),
    ];
    for (number, name, row) in counts {
        let found: Vec<String> = words(lines[4 + number]);
        assert_eq!(found.join(" "), format!("{number} {name} {row}"));
    }
    let sums: Vec<String> = words(lines[48]);
    assert_eq!(sums.join(" "), "entries - 1 3 4 1 1 - - 1 - - - 11");
    // every line as wide as the first, and the rest as ever
    assert!(lines[3..49].iter().all(|line| line.len() == lines[3].len()));
    let rest = BUSY.split_once("\ncredits\n").expect("both parts").1;
    assert!(text(&shown).ends_with(rest), "{}", text(&shown));
}

#[test]
fn entries_cut_short_are_told_and_not_counted() {
    let bytes = fs::read(busy("cut.rec")).expect("a recording");
    let cut = written("cut-short.rec", &bytes[..bytes.len() - 1]);
    let piece = written("cut-piece.rec", &bytes[..1]);
    let whole = written("cut-whole.rec", &bytes[..ENTRY_BYTES]);
    let found = output(&["report", &cut, &whole, &piece]);
    let warnings = format!(
        "beacon: warning: {cut} ends amid an entry, which is not counted: 116 of 117 bytes are there\n\
         beacon: warning: {piece} ends amid an entry, which is not counted: 1 of 117 bytes are there\n"
    );
    assert_eq!(text(&found.stderr), warnings);
    assert_eq!(found.status.code(), Some(0));
    let shown = text(&found.stdout);
    assert!(shown.starts_with("11 entries in 3 recordings\n"), "{shown}");
    assert!(
        shown.contains("\n  expired                  0\n"),
        "{shown}"
    );
}

#[test]
fn sizes_are_those_of_the_options() {
    let path = busy("sized.rec");
    let sizes = "--wallets 1 --escrows 4,096 --receipts 4096 --journal 8_192";
    let words: Vec<&str> = ["report", "--brief", &path]
        .into_iter()
        .chain(sizes.split(' '))
        .collect();
    let shown = succeeds(&words);
    let full = "\n  open       37 wallet_table_full          4\n";
    assert!(text(&shown).contains(full), "{}", text(&shown));
}

#[test]
fn nothing_is_printed_if_a_recording_cannot_be_read() {
    let path = busy("readable.rec");
    let missing = file("no-such-recording");
    for words in [["report", &path, &missing], ["report", &missing, &path]] {
        let said = format!("cannot read {missing}: ");
        assert_eq!(fails(&words, 1, &said), b"");
    }
    let folder = env!("CARGO_TARGET_TMPDIR");
    let said = format!("cannot read {folder}: ");
    assert_eq!(fails(&["report", &path, folder], 1, &said), b"");
}

#[test]
fn bad_commands_get_one_line() {
    let cases = [
        ("report", 2, "FILE"),
        ("report - -", 2, "can be read only once"),
        ("report - --brief --csv", 2, "'--brief'"),
        ("report - --wallets 0", 2, "1 to 1024"),
        ("report - --record x", 2, "--record"),
    ];
    for (words, status, said) in cases {
        let words: Vec<&str> = words.split(' ').collect();
        assert_eq!(fails(&words, status, said), b"", "{words:?}");
    }
}

#[test]
fn what_cannot_be_told_is_no_success() {
    let path = busy("untold.rec");
    let full = fs::OpenOptions::new().write(true).open("/dev/full");
    let mut report = beacon(&["report", &path]);
    let report = report.stdout(full.expect("a full device"));
    let reported = report.output().expect("the tool runs");
    assert_eq!(reported.status.code(), Some(1));
    let said = text(&reported.stderr);
    assert!(said.starts_with("beacon: cannot write to standard output: "));
}
