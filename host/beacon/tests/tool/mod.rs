//! The tool, as tests call it.

// no test uses all of it
#![allow(dead_code)]

use std::env;
use std::ffi::OsString;
use std::fs::{self, Permissions};
use std::os::unix::fs::{MetadataExt, PermissionsExt};
use std::os::unix::process::CommandExt;
use std::path::{Path, PathBuf};
use std::process::{self, Command, Output, Stdio};

use milebeacon::{Envelope, EscrowNumber, Submission, ENTRY_BYTES, RECORD_BYTES};

/// The tool, under the emulator where there is one.
pub fn beacon(words: &[&str]) -> Command {
    let mut line = tool_line();
    let mut command = Command::new(line.remove(0));
    command.args(line).args(words).stdin(Stdio::null());
    command
}

/// The same with files that it writes held to a small size.
pub fn beacon_in_little_room(words: &[&str]) -> Command {
    let mut command = Command::new("sh");
    // a write beyond the limit is to be an error, and not the end of the program
    command.args(["-c", "trap '' XFSZ; ulimit -f 1; exec \"$@\"", "sh"]);
    command.args(tool_line()).args(words).stdin(Stdio::null());
    command
}

/// The words before its arguments.
fn tool_line() -> Vec<OsString> {
    tool_line_of(env!("CARGO_BIN_EXE_beacon").into())
}

fn tool_line_of(tool: OsString) -> Vec<OsString> {
    let runner = env::var_os("MILEBEACON_RUNNER");
    runner.into_iter().chain([tool]).collect()
}

pub fn output(words: &[&str]) -> Output {
    beacon(words).output().expect("the tool runs")
}

pub fn text(bytes: &[u8]) -> &str {
    std::str::from_utf8(bytes).expect("text")
}

/// Standard output of a command that succeeds and has nothing to complain about.
pub fn succeeds(words: &[&str]) -> Vec<u8> {
    let output = output(words);
    assert_eq!(text(&output.stderr), "", "{words:?}");
    assert!(output.status.success(), "{words:?}");
    output.stdout
}

/// Standard output of a command that fails, after one line on standard error that says this.
pub fn fails(words: &[&str], status: i32, said: &str) -> Vec<u8> {
    let output = output(words);
    let complaint = text(&output.stderr);
    assert_eq!(output.status.code(), Some(status), "{words:?}: {complaint}");
    assert!(
        complaint.starts_with("beacon: ") && complaint.contains(said),
        "{complaint}"
    );
    assert_eq!(complaint.matches('\n').count(), 1, "{complaint}");
    output.stdout
}

/// A file of the test's own, which is not there yet.
pub fn file(name: &str) -> String {
    let path = PathBuf::from(env!("CARGO_TARGET_TMPDIR")).join(name);
    let _ = fs::remove_file(&path);
    path.to_str().expect("a readable path").to_owned()
}

/// A folder of the test's own, with nothing in it.
pub fn folder(name: &str) -> PathBuf {
    let path = PathBuf::from(env!("CARGO_TARGET_TMPDIR")).join(name);
    let _ = fs::remove_dir_all(&path);
    fs::create_dir(&path).expect("made");
    path
}

/// The names of the files in a folder.
pub fn names(folder: &Path) -> Vec<String> {
    let entries = fs::read_dir(folder).expect("a folder");
    let names = entries.map(|entry| entry.expect("an entry").file_name());
    let mut names: Vec<String> = names
        .map(|name| name.into_string().expect("text"))
        .collect();
    names.sort();
    names
}

/// The tool as a user without privileges runs it, to whom permissions apply, and a folder for it.
/// Where the tests are run by root it is another user.
pub struct Unprivileged {
    pub folder: PathBuf,
    tool: PathBuf,
}

impl Unprivileged {
    /// It is in a place where anybody can go, and the tool is brought along.
    pub fn new(name: &str) -> Unprivileged {
        let place = env::temp_dir().join(format!("beacon-{}-{name}", process::id()));
        let (folder, tool) = (place.join("folder"), place.join("beacon"));
        fs::create_dir_all(&folder).expect("made");
        // by another process: one that is open for writing cannot be run
        let mut copy = Command::new("cp");
        let copied = copy.args([env!("CARGO_BIN_EXE_beacon").as_ref(), tool.as_os_str()]);
        assert!(copied.status().expect("cp runs").success());
        for path in [&place, &tool] {
            fs::set_permissions(path, Permissions::from_mode(0o755)).expect("set");
        }
        Unprivileged { folder, tool }
    }

    /// Whether it is another user than the one who runs the tests.
    pub fn is_another(&self) -> bool {
        fs::metadata(&self.folder).expect("a folder").uid() == 0
    }

    pub fn beacon(&self, words: &[&str]) -> Command {
        let mut line = tool_line_of(self.tool.clone().into());
        let mut command = Command::new(line.remove(0));
        command.args(line).args(words).stdin(Stdio::null());
        if self.is_another() {
            command.uid(NOBODY).gid(NOBODY);
        }
        command
    }
}

impl Drop for Unprivileged {
    fn drop(&mut self) {
        let place = self.folder.parent().expect("it is within another");
        let _ = fs::set_permissions(&self.folder, Permissions::from_mode(0o755));
        let _ = fs::remove_dir_all(place);
    }
}

/// A user who owns nothing.
const NOBODY: u32 = 65_534;

/// P1 to P3: grant, open, and the same open again.
pub fn first_records(name: &str) -> String {
    let path = file(name);
    let words = "record grant --admin --signer 1 --target 7 --amount 50_000_000 --now 1000 --out";
    let words: Vec<&str> = words.split(' ').chain([path.as_str()]).collect();
    assert_eq!(succeeds(&words), b"");
    for _ in 0..2 {
        let words = "record open --signer 7 --target 8 --amount 20,000,000 --now 1000 --until 2000";
        let words: Vec<&str> = words.split(' ').chain(["--out", path.as_str()]).collect();
        assert_eq!(succeeds(&words), b"");
    }
    path
}

/// A recording of these bytes.
pub fn written(name: &str, bytes: &[u8]) -> String {
    let path = file(name);
    fs::write(&path, bytes).expect("written");
    path
}

/// A recording of these submissions. Its answers are anything, as nobody looks at them.
pub fn recording(name: &str, submissions: &[Submission]) -> String {
    let mut bytes = Vec::new();
    for submission in submissions {
        bytes.extend_from_slice(&submission.to_record().expect("well formed"));
        bytes.extend_from_slice(&[0xA5; ENTRY_BYTES - RECORD_BYTES]);
    }
    written(name, &bytes)
}

/// A grant, an open that is sent twice and released, another that is refunded, one that expires, and
/// transfers.
pub fn busy(name: &str) -> String {
    let seven = |nonce| Envelope::new(1_000, 7, nonce);
    let open = Submission::open(seven(1), 8, 20_000_000, 2_000);
    let grant = Submission::grant(Envelope::new(1_000, 1, 1).by_admin(), 7, 50_000_000);
    recording(
        name,
        &[
            grant,
            open,
            open,
            Submission::release(seven(2), EscrowNumber(1)),
            Submission::open(seven(3), 8, 1_000, 2_000),
            Submission::refund(seven(4), EscrowNumber(2)),
            Submission::open(seven(5), 8, 200, 2_000),
            Submission::transfer(seven(6), 8, 300),
            Submission::transfer(seven(7), 9, 400),
            Submission::transfer(seven(8), 9, 0),
            Submission::sweep(2_001, 10),
        ],
    )
}
