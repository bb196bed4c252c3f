//! Sections "The program" and the list of statuses.

mod common;
use common::*;
use second::{run, status};

#[test]
fn the_whole_output_for_p1_to_p3() {
    let p1 = bytes(&grant(1_000, 1, 7, 50_000_000));
    let p2 = bytes(&open(1_000, 7, 1, 8, 20_000_000, 2_000));
    let input = [&p1[..], &p2[..], &p2[..]].concat();
    assert_eq!(run(&input), "1 0 0\n2 0 1\n3 11 0\ntotal 50000000\n");
}

#[test]
fn the_binary_prints_the_same() {
    use std::io::Write;
    use std::process::{Command, Stdio};
    let p1 = bytes(&grant(1_000, 1, 7, 50_000_000));
    let input = [&p1[..], &p1[..], &p1[..50]].concat();
    let mut child = Command::new(env!("CARGO_BIN_EXE_second"))
        .stdin(Stdio::piped())
        .stdout(Stdio::piped())
        .spawn()
        .unwrap();
    child.stdin.take().unwrap().write_all(&input).unwrap();
    let output = child.wait_with_output().unwrap();
    assert!(output.status.success());
    assert_eq!(String::from_utf8(output.stdout).unwrap(), run(&input));
    assert_eq!(run(&input), "1 0 0\n2 11 0\n3 3 0\ntotal 50000000\n");
}

#[test]
fn empty_input_gives_only_the_total() {
    assert_eq!(run(&[]), "total 0\n");
}

#[test]
fn a_short_last_piece_is_answered_3() {
    assert_eq!(run(&[0xA7]), "1 3 0\ntotal 0\n");
    assert_eq!(run(&[0; 108]), "1 3 0\ntotal 0\n");
    assert_eq!(run(&[0; 109]), "1 3 0\n2 3 0\ntotal 0\n");
}

#[test]
fn the_program_has_64_wallets_128_escrows_128_receipts_and_512_journal_rows() {
    let mut input = Vec::new();
    for id in 1..=65 {
        input.extend_from_slice(&bytes(&grant(1_000, id, id, 1_000)));
    }
    for nonce in 0..129 {
        input.extend_from_slice(&bytes(&open(1_000, 7, 100 + nonce, 8, 1, 2_000)));
    }
    for nonce in 0..129 {
        let record = claim(1_000, 7, 300 + nonce, 8, 301_000, 0);
        input.extend_from_slice(&bytes(&record));
    }
    for nonce in 0..193 {
        input.extend_from_slice(&bytes(&transfer(1_000, 7, 500 + nonce, 8, 1)));
    }
    let output = run(&input);
    let lines: Vec<&str> = output.lines().collect();
    assert_eq!(lines[63], "64 0 0");
    assert_eq!(lines[64], "65 37 0");
    assert_eq!(lines[65], "66 0 1");
    assert_eq!(lines[192], "193 0 128");
    assert_eq!(lines[193], "194 38 0");
    assert_eq!(lines[194], "195 0 1");
    assert_eq!(lines[321], "322 0 128");
    assert_eq!(lines[322], "323 39 0");
    // 64 + 128 + 128 rows are written; 192 more fit.
    assert_eq!(lines[323 + 191], "515 0 0");
    assert_eq!(lines[323 + 192], "516 40 0");
    assert_eq!(lines[323 + 193], "total 64000");
    assert_eq!(lines.len(), 323 + 194);
}

#[test]
fn every_answer_has_its_status() {
    let of = |wanted| {
        (0..=43)
            .filter(|&n| status(n) == wanted)
            .collect::<Vec<_>>()
    };
    assert_eq!(of(200), [0]);
    assert_eq!(of(500), [1, 2]);
    assert_eq!(
        of(400),
        [3, 6, 8, 9, 10, 12, 15, 18, 20, 21, 24, 25, 26, 30, 31, 35]
    );
    assert_eq!(of(409), [4, 11, 29, 34, 36, 41, 42]);
    assert_eq!(of(503), [5]);
    assert_eq!(of(403), [7, 14, 28, 33, 43]);
    assert_eq!(of(404), [13, 16, 22, 23, 27, 32]);
    assert_eq!(of(402), [17]);
    assert_eq!(of(429), [19]);
    assert_eq!(of(507), [37, 38, 39, 40]);
    for other in [44, 45, 255, 1 << 32, u64::MAX] {
        assert_eq!(status(other), 500);
    }
}
