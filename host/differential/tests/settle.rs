//! The program `settle` on whole files of records, against the second program's run of the same
//! file.
//!
//! `MILEBEACON_SETTLE` names the program; without it the one that `rt run` builds in `crates/settle`
//! is taken, and nothing is compared if there is none. `MILEBEACON_RUNNER` names an emulator to run
//! it under.

use std::env;
use std::fs;
use std::io::Write;
use std::path::{Path, PathBuf};
use std::process::{Command, Stdio};

use differential::dice::Dice;
use differential::history::{Begin, History};
use milebeacon::{Envelope, Sizes, Submission};

/// How many files of records by chance are compared.
const FILES: u64 = 24;

fn repository() -> PathBuf {
    Path::new(env!("CARGO_MANIFEST_DIR")).join("../..")
}

/// The program, or none if it was not built and not asked for.
fn settle() -> Option<PathBuf> {
    match env::var_os("MILEBEACON_SETTLE") {
        Some(path) => Some(PathBuf::from(path)),
        None => Some(repository().join("crates/settle/out/settle")).filter(|path| path.is_file()),
    }
}

/// What the program writes when it is given these bytes.
fn written(program: &Path, input: &[u8]) -> String {
    let mut command = match env::var_os("MILEBEACON_RUNNER") {
        Some(runner) => {
            let mut command = Command::new(runner);
            command.arg(program);
            command
        }
        None => Command::new(program),
    };
    let mut child = command
        .stdin(Stdio::piped())
        .stdout(Stdio::piped())
        .spawn()
        .unwrap_or_else(|error| panic!("{} does not run: {error}", program.display()));
    let mut stdin = child.stdin.take().expect("a pipe");
    let input = input.to_vec();
    let feeder = std::thread::spawn(move || stdin.write_all(&input));
    let output = child.wait_with_output().expect("it ends");
    feeder.join().expect("no panic").expect("all is read");
    assert!(output.status.success(), "it ends well");
    String::from_utf8(output.stdout).expect("text")
}

fn compare(program: &Path, what: &str, input: &[u8]) -> usize {
    let (core, second) = (written(program, input), second::run(input));
    for (line, (one, other)) in (1..).zip(core.lines().zip(second.lines())) {
        assert_eq!(one, other, "{what}, line {line}");
    }
    assert_eq!(core, second, "{what}");
    second.lines().count() - 1
}

#[test]
fn settle_writes_what_the_second_program_writes() {
    let program = match settle() {
        Some(program) => program,
        None => {
            println!("there is no crates/settle/out/settle; nothing was compared");
            return;
        }
    };
    let grant = Submission::grant(Envelope::new(1_000, 1, 1).by_admin(), 7, 50_000_000);
    let open = Submission::open(Envelope::new(1_000, 7, 1), 8, 20_000_000, 2_000);
    let records = [grant, open, open].map(|s| s.to_record().expect("well formed"));
    let cases = records.concat();
    assert_eq!(
        written(&program, &cases),
        "1 0 0\n2 0 1\n3 11 0\ntotal 50000000\n"
    );
    assert_eq!(written(&program, &[]), "total 0\n");
    for length in [1, 107, 109, 215, 216, 217, 323] {
        compare(&program, "a short last piece", &cases[..length]);
    }
    let mut lines = 0;
    for seed in 0..FILES {
        let dice = &mut Dice::new(seed);
        // 700 records fill the journal of 512 rows when most of them settle
        let length = dice.pick(&[60, 300, 700]);
        let history = History::of(Begin::Fresh, Sizes::PROGRAM, dice, length);
        let mut file = history.records().concat();
        if seed % 6 == 5 {
            // what follows a lost byte is read askew
            file.remove(dice.index(file.len()));
        }
        lines += compare(&program, &format!("seed {seed}"), &file);
    }
    println!("{FILES} files by chance, {lines} records");
}

#[test]
fn the_expected_output_in_the_crate_is_what_the_second_program_writes() {
    let folder = repository().join("crates/settle");
    if let (Ok(input), Ok(output)) = (
        fs::read(folder.join("stdin")),
        fs::read(folder.join("stdout")),
    ) {
        assert_eq!(
            String::from_utf8(output).expect("text"),
            second::run(&input)
        );
    }
}
