//! `beacon convert`, as a person uses it on recordings of the old form.

#[path = "../../tests/old_form/mod.rs"]
mod old_form;
mod tool;

use std::fs;
use std::io::Write;
use std::process::Stdio;

use milebeacon::{ENTRY_BYTES, RECORD_BYTES};

use old_form::{converted, entry, recording, reply, torn, NOW, OPERATION};
use tool::{beacon, fails, file, first_records, output, succeeds, text, written};

/// What is said of the old recording.
const TOLD: &str =
    "41 entries, of which 7 accepts and 7 disputes converted; 16 malformed in the old form\n";

/// A recording of one entry.
fn one(name: &str, operation: u8, flags: u8, answer: u8) -> String {
    written(
        name,
        &entry(&reply(operation, flags, NOW, 1, 1), (answer, 0)),
    )
}

#[test]
fn a_new_file_has_the_recording_in_the_new_form() {
    let old = written("old.rec", &recording());
    let new = file("new.rec");
    let shown = succeeds(&["convert", &old, "--to", &new]);
    assert_eq!(text(&shown), format!("{old}: {TOLD}{new} is written\n"));
    assert_eq!(fs::read(&new).expect("a recording"), converted());
    assert_eq!(fs::read(&old).expect("still there"), recording());
    let shown = succeeds(&["replay", &new]);
    assert_eq!(text(&shown), "all agree: 41 entries\n");
}

#[test]
fn a_recording_is_replaced_on_request() {
    let path = written("replaced.rec", &recording());
    let shown = succeeds(&["convert", "--in-place", &path]);
    assert_eq!(text(&shown), format!("{path}: {TOLD}{path} is replaced\n"));
    assert_eq!(fs::read(&path).expect("a recording"), converted());
}

#[test]
fn standard_input_and_output_are_files_too() {
    let mut child = beacon(&["convert", "-", "--to", "-"])
        .stdin(Stdio::piped())
        .stdout(Stdio::piped())
        .stderr(Stdio::piped())
        .spawn()
        .expect("the tool runs");
    let mut input = child.stdin.take().expect("a pipe");
    input.write_all(&recording()).expect("written");
    drop(input);
    let found = child.wait_with_output().expect("it ends");
    assert_eq!(found.stdout, converted());
    assert_eq!(text(&found.stderr), format!("-: {TOLD}"));
    assert!(found.status.success());
}

#[test]
fn few_entries_a_cut_and_none_are_told() {
    let accept = entry(&reply(7, 1, NOW, 1, 1), (32, 0));
    let dispute = entry(&reply(8, 9, NOW, 1, 1), (32, 0));
    let both = [accept, dispute].concat();
    let cut = |bytes: usize| {
        format!(" ends amid an entry, which stays as it was: {bytes} of 117 bytes are there\n")
    };
    let nothing = "0 entries, of which 0 accepts and 0 disputes converted; 0 malformed";
    let first = "1 entry, of which 1 accept and 0 disputes converted; 0 malformed";
    let second = "2 entries, of which 1 accept and 1 dispute converted; 0 malformed";
    for (length, counts, ending) in [
        (0, nothing, None),
        (116, nothing, Some(116)),
        (117, first, None),
        (118, first, Some(1)),
        (234, second, None),
    ] {
        let path = written("few.rec", &both[..length]);
        let shown = succeeds(&["convert", "--in-place", &path]);
        let ending = ending.map_or_else(String::new, |bytes| format!("{path}{}", cut(bytes)));
        let expected = format!("{path}: {counts} in the old form\n{ending}{path} is replaced\n");
        assert_eq!(text(&shown), expected);
        let mut new = both[..length].to_vec();
        if length >= ENTRY_BYTES {
            new[3] = 5;
        }
        if length == 2 * ENTRY_BYTES {
            new[ENTRY_BYTES + OPERATION] = 7;
        }
        assert_eq!(fs::read(&path).expect("still there"), new);
    }
}

#[test]
fn what_is_in_the_new_form_by_its_answers_is_refused() {
    // in the old form the first three are malformed, the fourth is an accept and the last a dispute
    for (operation, flags, answer, shown) in [
        (7, 5, 0, "accept: 0 settled, word 0"),
        (7, 4, 6, "accept: 6 invalid_signature, word 0"),
        (7, 9, 41, "dispute: 41 acceptance_closed, word 0"),
        (7, 1, 35, "dispute: 35 dispute_reason_required, word 0"),
        (8, 9, 3, "no operation: 3 malformed_record, word 0"),
    ] {
        let path = one("refused.rec", operation, flags, answer);
        let before = fs::read(&path).expect("a recording");
        let said = format!(
            "{path} is in the new form already, by its own answers: entry 1 ({shown}) could not be \
             so in the old one; nothing was written, and --force converts it all the same\n"
        );
        let new = file("refused-new.rec");
        for words in [&["--in-place"][..], &["--to", &new], &["--to", "-"]] {
            let words: Vec<&str> = [&["convert", &path], words].concat();
            assert_eq!(fails(&words, 6, &said), b"");
        }
        assert_eq!(fs::read(&path).expect("still there"), before);
        assert!(fs::metadata(&new).is_err(), "no file was made");

        let forced = succeeds(&["convert", "--in-place", "--force", &path]);
        assert!(text(&forced).ends_with(" is replaced\n"));
        assert_ne!(fs::read(&path).expect("still there"), before);
    }
    let path = written("twice.rec", &recording());
    succeeds(&["convert", "--in-place", &path]);
    let said = "by its own answers: entry 8 (accept: 32 receipt_not_found, word 0) could not";
    fails(&["convert", "--in-place", &path], 6, said);
    assert_eq!(fs::read(&path).expect("still there"), converted());
}

#[test]
fn what_its_answers_do_not_tell_is_converted() {
    // malformed in both forms, or answered before its form was looked at, or the same in both
    for (operation, flags, answer, becomes) in [
        (7, 5, 3, (0, 5)),
        (7, 9, 1, (0, 9)),
        (7, 5, 2, (0, 5)),
        (7, 13, 0, (0, 13)),
        (7, 1, 34, (7, 5)),
        (8, 9, 0, (7, 9)),
        (8, 5, 3, (0, 5)),
    ] {
        let path = one("untold.rec", operation, flags, answer);
        succeeds(&["convert", "--in-place", &path]);
        let bytes = fs::read(&path).expect("still there");
        assert_eq!((bytes[2], bytes[3]), becomes, "{operation} {flags}");
    }
}

#[test]
fn a_file_of_records_is_not_taken_for_a_recording() {
    let path = first_records("no-recording.bin");
    let before = fs::read(&path).expect("the records");
    let said = "may be no recording: entry 1 was answered 167 (no answer's number), word ";
    assert_eq!(fails(&["convert", "--in-place", &path], 6, said), b"");
    assert_eq!(fs::read(&path).expect("still there"), before);

    // the last number that an answer has, and the first that none has
    let mut bytes = recording();
    bytes[RECORD_BYTES] = 43;
    succeeds(&["convert", "--in-place", &written("last.rec", &bytes)]);
    bytes[RECORD_BYTES] = 44;
    let said = "may be no recording: entry 1 was answered 44 ";
    fails(
        &["convert", "--in-place", &written("none.rec", &bytes)],
        6,
        said,
    );
}

#[test]
fn a_replay_says_that_a_recording_may_be_in_the_old_form() {
    let hint = "\nthe recording may be in the old form, in which operation 7 accepts and 8 \
                disputes: `beacon convert` turns it into the new one\n";
    let replayed = |bytes: &[u8]| {
        let found = output(&["replay", &written("hinted.rec", bytes)]);
        assert_eq!(found.status.code(), Some(3));
        text(&found.stdout).to_owned()
    };
    assert!(replayed(&recording()).ends_with(hint));
    let dispute = entry(&reply(8, 9, NOW, 1, 1), (32, 0));
    assert!(replayed(&dispute).ends_with(hint));
    // a disagreement of another kind
    let wrong = torn(reply(8, 9, NOW, 1, 1), OPERATION, 9);
    assert!(!replayed(&entry(&wrong, (32, 0))).contains("old form"));
}

#[test]
fn accepts_and_disputes_are_shown_by_their_names() {
    let path = file("named.bin");
    let records: Vec<u8> = [(7, 5), (7, 9), (7, 1), (7, 13), (8, 9)]
        .iter()
        .flat_map(|&(operation, flags)| reply(operation, flags, NOW, 1, 1))
        .chain([0xA7, 0x3C, 7])
        .collect();
    fs::write(&path, records).expect("written");
    let shown = fails(&["run", &path], 1, "short piece of 3 bytes");
    let lines = "\
1: accept: 32 receipt_not_found, word 0, status 404
2: dispute: 32 receipt_not_found, word 0, status 404
3: dispute: 32 receipt_not_found, word 0, status 404
4: accept: 3 malformed_record, word 0, status 400
5: no operation: 3 malformed_record, word 0, status 400
6: reply: 3 malformed_record, word 0, status 400
";
    assert!(text(&shown).starts_with(lines), "{}", text(&shown));
    let shown = fails(&["explain", &path], 1, "3 of 6 records are malformed");
    let said = text(&shown).lines().step_by(2);
    for (said, ending) in said.zip([
        ") to accept receipt 1",
        ") to dispute receipt 1, with a reason",
        ") to dispute receipt 1, with no reason",
        "4: no well-formed record",
        "5: no well-formed record",
        "6: a short last piece of 3 bytes",
    ]) {
        assert!(said.ends_with(ending), "{said}");
    }
}

#[test]
fn help_says_what_is_converted_and_that_it_is_done_once() {
    let shown = succeeds(&["convert", "--help"]);
    let words: Vec<&str> = text(&shown).split_whitespace().collect();
    let shown = words.join(" ");
    for said in [
        "In the old form operation 7 was an accept and operation 8 a dispute.",
        "Convert a recording once.",
        "If there is no such entry it cannot be told, and the recording is converted.",
        "A file is written whole or not at all",
        "6 its own answers say that it is not in the old form; no file has changed",
    ] {
        assert!(shown.contains(said), "{shown}");
    }
    let shown = succeeds(&["--help"]);
    let line = "\n  convert  Turns a recording of the old form of replies into the new one\n";
    assert!(text(&shown).contains(line), "{}", text(&shown));
}
