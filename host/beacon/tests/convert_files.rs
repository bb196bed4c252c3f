//! `beacon convert` and the files that it writes: whole or not at all.

#[path = "../../tests/old_form/mod.rs"]
mod old_form;
mod tool;

use std::fs::{self, OpenOptions, Permissions};
use std::os::unix::fs::{symlink, FileTypeExt, MetadataExt, PermissionsExt};
use std::os::unix::net::UnixListener;
use std::path::{Path, PathBuf};
use std::{env, process};

use old_form::{converted, recording};
use tool::{beacon, beacon_in_little_room, fails, folder, names, succeeds, text, Unprivileged};

/// A folder of the test's own, with the old recording in it.
fn with_recording(name: &str) -> (PathBuf, String) {
    let folder = folder(name);
    let old = at(&folder, "old.rec");
    fs::write(&old, recording()).expect("written");
    (folder, old)
}

fn at(folder: &Path, name: &str) -> String {
    let path = folder.join(name);
    path.to_str().expect("a readable path").to_owned()
}

fn has(path: &str, bytes: &[u8]) {
    assert!(fs::read(path).expect("still there") == bytes, "{path}");
}

fn mode(path: &str) -> u32 {
    fs::metadata(path).expect("still there").mode() & 0o777
}

fn set_mode(path: impl AsRef<Path>, mode: u32) {
    fs::set_permissions(path, Permissions::from_mode(mode)).expect("set");
}

#[test]
fn a_file_that_is_there_is_overwritten_on_request_only() {
    let (folder, old) = with_recording("overwritten");
    let new = at(&folder, "new.rec");
    for bytes in [&b"some other thing"[..], b""] {
        fs::write(&new, bytes).expect("written");
        set_mode(&new, 0o604);
        let said = format!("{new} is there already and was left as it is; --overwrite replaces it");
        assert_eq!(fails(&["convert", &old, "--to", &new], 1, &said), b"");
        has(&new, bytes);
        let shown = succeeds(&["convert", &old, "--to", &new, "--overwrite"]);
        assert!(text(&shown).ends_with(&format!("\n{new} is replaced\n")));
        has(&new, &converted());
        assert_eq!(mode(&new), 0o604);
    }
    has(&old, &recording());
    assert_eq!(names(&folder), ["new.rec", "old.rec"]);

    // and made if it is not
    fs::remove_file(&new).expect("removed");
    let shown = succeeds(&["convert", &old, "--to", &new, "--overwrite"]);
    assert!(text(&shown).ends_with(&format!("\n{new} is written\n")));
    has(&new, &converted());
}

#[test]
fn the_recording_itself_is_no_new_file() {
    let (folder, old) = with_recording("itself");
    let others = ["link.rec", "name.rec"].map(|name| at(&folder, name));
    symlink("old.rec", &others[0]).expect("linked");
    fs::hard_link(&old, &others[1]).expect("named");
    let dotted = old.replace("/old.rec", "/./old.rec");
    for same in [&old, &dotted, &others[0], &others[1]] {
        let said = format!("{same} is {old} itself and was left as it is; --in-place replaces it");
        for more in [&[][..], &["--overwrite"]] {
            let words = [&["convert", &old, "--to", same], more].concat();
            assert_eq!(fails(&words, 1, &said), b"");
        }
    }
    has(&old, &recording());
    assert_eq!(names(&folder), ["link.rec", "name.rec", "old.rec"]);
}

#[test]
fn permissions_are_those_of_the_recording() {
    for (number, bits) in (1..).zip([0o600, 0o640, 0o400]) {
        let (folder, old) = with_recording(&format!("permitted-{number}"));
        set_mode(&old, bits);
        let new = at(&folder, "new.rec");
        succeeds(&["convert", &old, "--to", &new]);
        assert_eq!(mode(&new), bits & !own_mask(&folder));
    }
    let (folder, old) = with_recording("permitted");
    set_mode(&old, 0o646);
    succeeds(&["convert", &old, "--in-place"]);
    assert_eq!(mode(&old), 0o646);
    assert_eq!(names(&folder), ["old.rec"]);
}

/// What the mask of the user takes away from a new file's permissions.
fn own_mask(folder: &Path) -> u32 {
    let plain = at(folder, "plain");
    fs::write(&plain, b"").expect("written");
    !mode(&plain) & 0o666
}

#[test]
fn a_link_stays_a_link() {
    let (folder, old) = with_recording("linked");
    let link = at(&folder, "link.rec");
    symlink("old.rec", &link).expect("linked");
    succeeds(&["convert", &link, "--in-place"]);
    has(&old, &converted());
    assert!(fs::symlink_metadata(&link).expect("a link").is_symlink());

    // also where it is the new file's name, and if it leads nowhere
    let other = at(&folder, "other.rec");
    fs::write(&other, recording()).expect("written");
    succeeds(&["convert", &other, "--to", &link, "--overwrite"]);
    has(&old, &converted());
    assert!(fs::symlink_metadata(&link).expect("a link").is_symlink());
    let nowhere = at(&folder, "nowhere.rec");
    symlink("no-such-file", &nowhere).expect("linked");
    let words = ["convert", &other, "--to", &nowhere];
    fails(&words, 1, "is there already and was left as it is");
    let words = ["convert", &other, "--to", &nowhere, "--overwrite"];
    fails(&words, 1, "No such file");
    assert_eq!(names(&folder).len(), 4);
}

#[test]
fn what_there_is_no_room_for_leaves_all_as_it_was() {
    let (folder, old) = with_recording("full");
    let new = at(&folder, "new.rec");
    for (words, said) in [
        (
            vec!["--in-place"],
            format!("cannot replace {old}, which is as it was: "),
        ),
        (vec!["--to", &new], format!("cannot write {new}: ")),
    ] {
        let words = [vec!["convert", old.as_str()], words].concat();
        let mut convert = beacon_in_little_room(&words);
        let converted = convert.output().expect("the tool runs");
        assert_eq!(converted.status.code(), Some(1));
        assert_eq!(text(&converted.stdout), "");
        let complaint = text(&converted.stderr);
        assert!(complaint.contains(&said), "{complaint}");
        has(&old, &recording());
        assert_eq!(names(&folder), ["old.rec"]);
    }
}

#[test]
fn what_may_not_be_written_is_left_as_it_was() {
    let other = Unprivileged::new("protected");
    let old = at(&other.folder, "old.rec");
    fs::write(&old, recording()).expect("written");
    let new = at(&other.folder, "new.rec");
    let fails = |words: &[&str], said: &str| {
        let words = [&["convert", old.as_str()], words].concat();
        let failed = other.beacon(&words).output().expect("the tool runs");
        let complaint = text(&failed.stderr);
        assert_eq!(failed.status.code(), Some(1), "{complaint}");
        assert!(complaint.contains(said), "{complaint}");
        has(&old, &recording());
        assert!(fs::metadata(&new).is_err());
    };
    let kept = format!("cannot replace {old}, which is as it was: ");
    // the folder, then the file
    set_mode(&old, 0o666);
    set_mode(&other.folder, 0o555);
    fails(&["--in-place"], &format!("{kept}Permission denied"));
    let said = format!("cannot write {new}: Permission denied");
    fails(&["--to", &new], &said);
    set_mode(&other.folder, 0o777);
    set_mode(&old, 0o444);
    fails(&["--in-place"], &format!("{kept}Permission denied"));
    if other.is_another() {
        // whoever replaced it would have it
        set_mode(&old, 0o666);
        fails(
            &["--in-place"],
            &format!("{kept}it belongs to another user"),
        );
        set_mode(&old, 0o600);
        fails(
            &["--to", &new],
            &format!("cannot read {old}: Permission denied"),
        );
    }
    let left: Vec<String> = names(&other.folder);
    assert!(
        !left.iter().any(|name| name.ends_with(".draft")),
        "{left:?}"
    );
}

#[test]
fn what_is_done_is_told_also_if_standard_output_is_full() {
    let (_, old) = with_recording("untold");
    let full = OpenOptions::new().write(true).open("/dev/full");
    let mut convert = beacon(&["convert", "--in-place", &old]);
    let convert = convert.stdout(full.expect("a full device"));
    let converted_all_the_same = convert.output().expect("the tool runs");
    assert_eq!(converted_all_the_same.status.code(), Some(1));
    let said = text(&converted_all_the_same.stderr);
    let done = format!("beacon: {old} is replaced, but cannot write to standard output: ");
    assert!(said.starts_with(&done), "{said}");
    has(&old, &converted());
}

#[test]
fn what_is_no_plain_file_is_not_replaced() {
    // one of the test's own: whoever breaks this must not lose a device of the machine
    let name = format!("beacon-{}-socket", process::id());
    let socket = at(&env::temp_dir(), &name);
    let _listener = UnixListener::bind(&socket).expect("a socket");
    let (_, old) = with_recording("no-plain-file");
    let said = format!("cannot replace {socket}, which is as it was: it is no plain file");
    fails(&["convert", &old, "--to", &socket, "--overwrite"], 1, &said);
    fails(&["convert", &socket, "--in-place"], 1, &said);
    let left = fs::symlink_metadata(&socket).expect("still there");
    fs::remove_file(&socket).expect("removed");
    assert!(left.file_type().is_socket());
}

#[test]
fn bad_commands_get_one_line() {
    let (folder, old) = with_recording("bad");
    let (missing, inside) = (at(&folder, "no-such-file"), at(&folder, "no-such/new.rec"));
    let place = at(&folder, "");
    let (old, place) = (old.as_str(), place.as_str());
    for (words, status, said) in [
        (vec![], 2, "FILE"),
        (vec![old], 2, "--to <NEW>|--in-place"),
        (vec![old, "--to", "x", "--in-place"], 2, "'--in-place'"),
        (vec![old, "--in-place", "--overwrite"], 2, "'--overwrite'"),
        (vec![old, "--to"], 2, "--to"),
        (vec![old, old, "--in-place"], 2, "old.rec"),
        (
            vec!["-", "--in-place"],
            2,
            "standard input cannot be replaced",
        ),
        (vec![&missing, "--in-place"], 1, "cannot read"),
        (vec![&missing, "--to", "-"], 1, "cannot read"),
        (vec![&missing, "--to", "x"], 1, "cannot read"),
        (vec![old, "--to", &inside], 1, "cannot write"),
        (vec![place, "--in-place"], 1, "it is no plain file"),
        (vec![place, "--to", "x"], 1, "cannot read"),
        (vec![old, "--to", place], 1, "is there already"),
        (
            vec![old, "--to", place, "--overwrite"],
            1,
            "it is no plain file",
        ),
    ] {
        let words = [vec!["convert"], words].concat();
        assert_eq!(fails(&words, status, said), b"", "{words:?}");
    }
    has(old, &recording());
    assert_eq!(names(&folder), ["old.rec"]);
}
