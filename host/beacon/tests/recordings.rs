//! `beacon run --record` and `beacon replay`, as a person uses them.

mod tool;

use std::fs;
use std::io::Write;
use std::process::Stdio;

use milebeacon::{Entries, Recorded, Submission, ENTRY_BYTES, RECORD_BYTES};

use tool::{
    beacon, beacon_in_little_room, fails, file, first_records, output, succeeds, text, written,
};

/// P1 to P3, settled and recorded.
fn first_recording(name: &str) -> String {
    let records = first_records(&format!("{name}.bin"));
    let recording = file(&format!("{name}.rec"));
    succeeds(&["run", &records, "--record", &recording]);
    recording
}

/// Standard output of a replay that finds something and has nothing to complain about.
fn finds(words: &[&str], status: i32) -> String {
    let found = output(words);
    assert_eq!(text(&found.stderr), "", "{words:?}");
    assert_eq!(found.status.code(), Some(status), "{words:?}");
    text(&found.stdout).to_owned()
}

#[test]
fn a_recording_has_the_records_and_their_answers() {
    let records = first_records("kept.bin");
    let recording = file("kept.rec");
    let shown = succeeds(&["run", &records, "--record", &recording]);
    let plain = text(&succeeds(&["run", &records])).to_owned();
    let told = format!("{plain}recorded 3 entries in {recording}\n");
    assert_eq!(text(&shown), told);

    let (bytes, records) = (fs::read(&recording), fs::read(&records));
    let (bytes, records) = (bytes.expect("a recording"), records.expect("the records"));
    assert_eq!(bytes.len(), 3 * ENTRY_BYTES);
    let entries = Entries::new(&bytes).zip(records.chunks_exact(RECORD_BYTES));
    for ((entry, record), (number, word)) in entries.zip([(0, 0), (0, 1), (11, 0)]) {
        assert_eq!(entry.record, record);
        assert_eq!(entry.recorded, Recorded { number, word });
    }
    assert_eq!(finds(&["replay", &recording], 0), "all agree: 3 entries\n");
}

#[test]
fn an_entry_that_disagrees_is_shown_in_words() {
    let mut bytes = fs::read(first_recording("changed")).expect("a recording");
    bytes[ENTRY_BYTES + RECORD_BYTES] = 17;
    let path = written("changed-answer.rec", &bytes);
    let expected = "\
entry 2 disagrees: at 1000 [1970-01-01 00:00:01.000 UTC], 7 asks (nonce 1, issued 1000 [1970-01-01 00:00:01.000 UTC], expires 61000 [1970-01-01 00:01:01.000 UTC]) to open an escrow of 20,000,000 for wallet 8 until 2000 [1970-01-01 00:00:02.000 UTC]
   recorded: 17 insufficient_balance, word 1, status 402 (the signer's balance is less than the amount)
   answered: 0 settled, word 1, status 200
agreeing before it: 1 entry; not replayed after it: 1 entry
";
    assert_eq!(finds(&["replay", &path], 3), expected);

    // a word alone, a number that no answer has, and a cut behind it
    bytes[ENTRY_BYTES + RECORD_BYTES] = 0;
    bytes[2 * ENTRY_BYTES - 1] = 1;
    let path = written("changed-word.rec", &bytes);
    let shown = finds(&["replay", &path], 3);
    assert!(shown.contains("recorded: 0 settled, word 72057594037927937, status 200\n"));
    bytes[ENTRY_BYTES + RECORD_BYTES] = 200;
    bytes.truncate(3 * ENTRY_BYTES - 1);
    let path = written("changed-number.rec", &bytes);
    let shown = finds(&["replay", &path], 3);
    assert!(shown.contains("recorded: 200 (no answer's number), word"));
    assert!(shown.contains("not replayed after it: 0 entries and one cut short\n"));
}

#[test]
fn a_record_that_is_none_is_shown_as_such() {
    let mut bytes = vec![0xEE; ENTRY_BYTES];
    bytes[RECORD_BYTES..].copy_from_slice(&[0; 9]);
    let shown = finds(&["replay", &written("none.rec", &bytes)], 3);
    let expected = "\
entry 1 disagrees: no well-formed record
   recorded: 0 settled, word 0, status 200
   answered: 3 malformed_record, word 0, status 400 (the record does not have the form of its operation)
agreeing before it: 0 entries; not replayed after it: 0 entries
";
    assert_eq!(shown, expected);
    bytes[RECORD_BYTES] = 3;
    let path = written("none-agrees.rec", &bytes);
    assert_eq!(finds(&["replay", &path], 0), "all agree: 1 entry\n");
}

#[test]
fn a_cut_and_an_empty_recording_are_told() {
    let bytes = fs::read(first_recording("whole")).expect("a recording");
    let cuts = [
        (0, 0, "all agree: 0 entries\n".to_owned()),
        (1, 4, cut("0 agreeing entries", 1)),
        (116, 4, cut("0 agreeing entries", 116)),
        (117, 0, "all agree: 1 entry\n".to_owned()),
        (200, 4, cut("1 agreeing entry", 83)),
        (350, 4, cut("2 agreeing entries", 116)),
    ];
    for (length, status, expected) in cuts {
        let path = written("cut.rec", &bytes[..length]);
        assert_eq!(finds(&["replay", &path], status), expected);
    }
}

fn cut(after: &str, bytes: usize) -> String {
    format!(
        "cut short after {after}; of one more only {bytes} of 117 bytes are there, and it was not \
         replayed\n"
    )
}

#[test]
fn sizes_are_those_of_the_options() {
    let records = first_records("sized.bin");
    let small = file("sized.rec");
    let sizes = "--wallets 1 --escrows 4,096 --receipts 4096 --journal 8_192";
    let with = |words: &[&'static str], path: &str| -> Vec<String> {
        let words = words.iter().map(|word| (*word).to_owned());
        let sizes = sizes.split(' ').map(str::to_owned);
        words.chain([path.to_owned()]).chain(sizes).collect()
    };
    let mut words = with(&["run"], &records);
    words.extend(["--record".to_owned(), small.clone()]);
    let words: Vec<&str> = words.iter().map(String::as_str).collect();
    let shown = succeeds(&words);
    let full = "2: open: 37 wallet_table_full, word 0, status 507\n";
    assert!(text(&shown).contains(full), "{}", text(&shown));

    let words = with(&["replay"], &small);
    let words: Vec<&str> = words.iter().map(String::as_str).collect();
    assert_eq!(finds(&words, 0), "all agree: 3 entries\n");
    let shown = finds(&["replay", &small], 3);
    assert!(shown.starts_with("entry 2 disagrees: "), "{shown}");
    let hint = "\none of the answers says that a table is full: the sizes of the tables may not \
                be those of the recording\n";
    assert!(shown.ends_with(hint), "{shown}");

    // so do a byte of the recording that was damaged, and the core alone
    let mut bytes = fs::read(first_recording("full")).expect("a recording");
    bytes[RECORD_BYTES] = 40;
    let shown = finds(&["replay", &written("full-said.rec", &bytes)], 3);
    assert!(shown.ends_with(hint), "{shown}");
    let recording = first_recording("full-found");
    let shown = finds(&["replay", &recording, "--wallets", "1"], 3);
    assert!(shown.ends_with(hint), "{shown}");
}

#[test]
fn nothing_is_overwritten() {
    let records = first_records("again.bin");
    let recording = file("again.rec");
    for bytes in [&b"some other thing"[..], b""] {
        fs::write(&recording, bytes).expect("written");
        let words = ["run", &records, "--record", &recording];
        assert_eq!(fails(&words, 1, "is there already"), b"");
        assert_eq!(fs::read(&recording).expect("still there"), bytes);
    }
    let before = fs::read(&records).expect("the records");
    let words = ["run", &records, "--record", &records];
    assert_eq!(fails(&words, 1, "is there already"), b"");
    assert_eq!(fs::read(&records).expect("still there"), before);
}

#[test]
fn nothing_is_made_for_a_command_that_comes_to_nothing() {
    let (recording, records) = (file("unmade.rec"), first_records("unmade.bin"));
    let missing = file("no-such-file");
    let words = ["run", &missing, "--record", &recording];
    assert_eq!(fails(&words, 1, "cannot read"), b"");
    let words = ["run", &records, "--record", &recording, "--wallets", "1025"];
    assert_eq!(fails(&words, 2, "1 to 1024"), b"");
    assert!(fs::metadata(&recording).is_err(), "no file was made");
}

#[test]
fn what_cannot_be_recorded_is_not_answered() {
    let sweep = Submission::sweep(1, 1).to_record().expect("well formed");
    let records = written("many.bin", &sweep.repeat(100));
    let recording = file("many.rec");
    let mut run = beacon_in_little_room(&["run", &records, "--record", &recording]);
    let ran = run.output().expect("the tool runs");
    assert_eq!(ran.status.code(), Some(1));
    let said = text(&ran.stderr);
    assert!(said.starts_with("beacon: the recording could not be written: "));
    let state = format!("; {recording} has the answers printed and nothing else\n");
    assert!(said.ends_with(&state), "{said}");

    // the entry that there was no room for left no piece behind
    let bytes = fs::read(&recording).expect("what was settled before");
    let entries = Entries::new(&bytes);
    assert!((1..100).contains(&entries.len()), "{} bytes", bytes.len());
    assert_eq!(entries.cut(), b"");
    assert_eq!(text(&ran.stdout).lines().count(), entries.len());
    finds(&["replay", &recording], 0);
}

#[test]
fn a_recording_may_have_a_bare_name() {
    let records = first_records("bare.bin");
    let recording = file("bare.rec");
    let (folder, name) = recording.rsplit_once('/').expect("a folder");
    let mut run = beacon(&["run", &records, "--record", name]);
    let ran = run.current_dir(folder).output().expect("the tool runs");
    assert_eq!(text(&ran.stderr), "");
    assert!(ran.status.success());
    assert_eq!(finds(&["replay", &recording], 0), "all agree: 3 entries\n");
}

#[test]
fn a_short_last_piece_is_answered_and_not_recorded() {
    let records = first_records("torn.bin");
    let mut bytes = fs::read(&records).expect("the records");
    bytes.extend_from_slice(&[0xA7, 0x3C, 3]);
    fs::write(&records, &bytes).expect("written");
    let recording = file("torn.rec");
    let words = ["run", &records, "--record", &recording];
    let shown = fails(&words, 1, "answered as malformed, and not recorded");
    assert!(text(&shown).contains("\n4: open: 3 malformed_record, word 0, status 400\n"));
    assert!(text(&shown).contains("\nrecorded 3 entries in "));
    assert_eq!(finds(&["replay", &recording], 0), "all agree: 3 entries\n");
}

#[test]
fn a_recording_comes_from_standard_input_too() {
    let mut bytes = fs::read(first_recording("streamed")).expect("a recording");
    let sweep = Submission::sweep(1, 1).to_record().expect("well formed");
    bytes.extend_from_slice(&sweep);
    bytes.extend_from_slice(&[4, 0, 0, 0, 0, 0, 0, 0, 0]);
    let mut child = beacon(&["replay", "-"])
        .stdin(Stdio::piped())
        .stdout(Stdio::piped())
        .spawn()
        .expect("the tool runs");
    let mut input = child.stdin.take().expect("a pipe");
    input.write_all(&bytes).expect("written");
    drop(input);
    let found = child.wait_with_output().expect("it ends");
    assert_eq!(text(&found.stdout), "all agree: 4 entries\n");
    assert!(found.status.success());
}

#[test]
fn bad_commands_get_one_line() {
    let cases = [
        ("replay", 2, "FILE"),
        ("replay no-such-file", 1, "cannot read no-such-file"),
        ("replay - --wallets 0", 2, "1 to 1024"),
        ("replay - --escrows 4097", 2, "1 to 4096"),
        ("replay - --receipts x", 2, "1 to 4096"),
        ("replay - --journal 8193", 2, "1 to 8192"),
        ("run - --journal 18446744073709551616", 2, "1 to 8192"),
        ("replay - --record x", 2, "--record"),
        ("run - --record -", 2, "needs a file"),
    ];
    for (words, status, said) in cases {
        let words: Vec<&str> = words.split(' ').collect();
        assert_eq!(fails(&words, status, said), b"", "{words:?}");
    }
}

#[test]
fn what_cannot_be_told_is_no_success() {
    let recording = first_recording("untold");
    let full = fs::OpenOptions::new().write(true).open("/dev/full");
    let mut replay = beacon(&["replay", &recording]);
    let replay = replay.stdout(full.expect("a full device"));
    let replayed = replay.output().expect("the tool runs");
    assert_eq!(replayed.status.code(), Some(1));
    let said = text(&replayed.stderr);
    assert!(said.starts_with("beacon: cannot write to standard output: "));
}

#[test]
fn help_tells_the_exit_statuses() {
    let shown = succeeds(&["replay", "--help"]);
    for line in [
        "  0  all entries agree\n",
        "  1  the recording cannot be read, or what was found cannot be written\n",
        "  3  an entry disagrees\n",
        "  4  the whole entries agree, and the last is cut short\n",
    ] {
        assert!(text(&shown).contains(line), "{}", text(&shown));
    }
}
