//! Files that are written whole or not at all.
//!
//! What is to be written goes to a draft in the same folder, which is given the file's name once it is
//! on the disk. If anything fails before that, the draft is taken away and the file is as it was. A
//! tool that is stopped midway may leave its draft behind.

use std::fs::{self, File, Metadata, OpenOptions};
use std::io::{self, Write};
use std::os::unix::fs::{MetadataExt, OpenOptionsExt};
use std::path::{Path, PathBuf};
use std::process;

use crate::files::{folder_of, sync_folder};
use crate::problem::Problem;

/// Writes a new file with these permissions, less those that the user's mask takes away. A file that
/// is there already stays as it is.
pub fn create(name: &str, mode: u32, bytes: &[u8]) -> Result<(), Problem> {
    let path = Path::new(name);
    let problem = |error: io::Error| Problem::io(format_args!("cannot write {name}"), &error);
    let mut draft = Draft::new(folder_of(path), mode).map_err(problem)?;
    draft.fill(bytes).map_err(problem)?;
    // A rename would overwrite a file that somebody else has made meanwhile. So the name is taken
    // first, by a file with nothing in it.
    let taken = OpenOptions::new().write(true).create_new(true).open(path);
    taken.map_err(|error| match error.kind() {
        io::ErrorKind::AlreadyExists => is_there(name, ""),
        _ => problem(error),
    })?;
    draft.take_the_name_of(path).map_err(|error| {
        let _ = fs::remove_file(path);
        problem(error)
    })?;
    on_disk(name, path)
}

/// That there is such a file, which nobody asked to replace.
pub fn is_there(name: &str, hint: &str) -> Problem {
    Problem::Input(format!(
        "{name} is there already and was left as it is{hint}"
    ))
}

/// A file that is there, to be replaced.
pub struct Standing<'a> {
    /// The name by which it was asked for.
    name: &'a str,
    /// Where it is. A link is to stay one, so this is what it leads to.
    path: PathBuf,
    /// What it was when it was asked for.
    about: Metadata,
}

impl<'a> Standing<'a> {
    /// The file of this name, if it is one that may be written. One that may not is not to be
    /// replaced either, though its folder may allow it.
    pub fn find(name: &'a str) -> Result<Standing<'a>, Problem> {
        let problem = |error: io::Error| kept(name, error);
        let path = fs::canonicalize(name).map_err(problem)?;
        let about = fs::metadata(&path).map_err(problem)?;
        if !about.is_file() {
            return Err(kept(name, "it is no plain file"));
        }
        let opened = OpenOptions::new().write(true).open(&path);
        opened.map_err(problem)?;
        Ok(Standing { name, path, about })
    }

    /// Puts a file with these bytes in its place. Permissions, owner and group stay.
    pub fn replace(&self, bytes: &[u8]) -> Result<(), Problem> {
        let problem = |error: io::Error| kept(self.name, error);
        // nobody else may read what the file may not be read by, not even for a moment
        let mut draft = Draft::new(folder_of(&self.path), 0o600).map_err(problem)?;
        let own = draft.file.metadata().map_err(problem)?;
        if (own.uid(), own.gid()) != (self.about.uid(), self.about.gid()) {
            let why = "it belongs to another user or group than a new file would";
            return Err(kept(self.name, why));
        }
        let permissions = self.about.permissions();
        draft.file.set_permissions(permissions).map_err(problem)?;
        draft.fill(bytes).map_err(problem)?;
        let now = fs::symlink_metadata(&self.path).map_err(problem)?;
        if state(&now) != state(&self.about) {
            return Err(kept(self.name, "something else has changed it meanwhile"));
        }
        draft.take_the_name_of(&self.path).map_err(problem)?;
        on_disk(self.name, &self.path)
    }
}

/// Why a file was not replaced.
fn kept(name: &str, why: impl std::fmt::Display) -> Problem {
    Problem::Input(format!("cannot replace {name}, which is as it was: {why}"))
}

/// What would be another after a change by somebody else: which file it is, its length and its time.
fn state(about: &Metadata) -> (u64, u64, u64, i64, i64) {
    let (seconds, part) = (about.mtime(), about.mtime_nsec());
    (about.dev(), about.ino(), about.len(), seconds, part)
}

/// Waits until the new name is on the disk. The file is there by then, whatever happens.
fn on_disk(name: &str, path: &Path) -> Result<(), Problem> {
    let synced = sync_folder(path);
    synced.map_err(|error| {
        Problem::io(
            format_args!("{name} is written, but may not be on the disk"),
            &error,
        )
    })
}

/// A new file that has no name of its own yet.
struct Draft {
    path: PathBuf,
    file: File,
    named: bool,
}

impl Draft {
    fn new(folder: &Path, mode: u32) -> io::Result<Draft> {
        let mut attempt = 0;
        loop {
            let path = folder.join(format!(".beacon-{}-{attempt}.draft", process::id()));
            let mut options = OpenOptions::new();
            let opened = options.write(true).create_new(true).mode(mode).open(&path);
            attempt += 1;
            match opened {
                // left behind by a tool that had the same number as this one
                Err(error) if error.kind() == io::ErrorKind::AlreadyExists && attempt < 100 => {}
                opened => {
                    return opened.map(|file| Draft {
                        path,
                        file,
                        named: false,
                    })
                }
            }
        }
    }

    /// Writes these bytes, and waits until they are on the disk.
    fn fill(&mut self, bytes: &[u8]) -> io::Result<()> {
        self.file.write_all(bytes)?;
        self.file.sync_all()
    }

    /// Gives it the name of a file, which it replaces.
    fn take_the_name_of(mut self, path: &Path) -> io::Result<()> {
        fs::rename(&self.path, path)?;
        self.named = true;
        Ok(())
    }
}

impl Drop for Draft {
    fn drop(&mut self) {
        if !self.named {
            let _ = fs::remove_file(&self.path);
        }
    }
}

#[cfg(test)]
mod tests {
    use super::*;
    use std::os::unix::fs::PermissionsExt;

    /// A folder of the test's own, and the name of a file in it that has these bytes, if any.
    fn folder(name: &str, bytes: Option<&[u8]>) -> (PathBuf, String) {
        let folder = std::env::temp_dir().join(format!("beacon-{}-{name}", process::id()));
        fs::create_dir(&folder).expect("made");
        let path = folder.join("file");
        if let Some(bytes) = bytes {
            fs::write(&path, bytes).expect("written");
        }
        let path = path.to_str().expect("a readable path").to_owned();
        (folder, path)
    }

    /// The names in the folder, which is gone afterwards.
    fn names(folder: PathBuf) -> Vec<String> {
        let found = fs::read_dir(&folder).expect("a folder");
        let name = |entry: io::Result<fs::DirEntry>| entry.expect("a name").file_name();
        let found = found.map(|entry| name(entry).to_str().expect("a readable name").to_owned());
        let mut found: Vec<String> = found.collect();
        found.sort();
        fs::remove_dir_all(folder).expect("removed");
        found
    }

    fn said(result: Result<(), Problem>) -> String {
        result.expect_err("a problem").to_string()
    }

    #[test]
    fn a_file_made_meanwhile_is_not_overwritten() {
        let (folder, path) = folder("meanwhile", Some(b"somebody's"));
        let told = format!("{path} is there already and was left as it is");
        assert_eq!(said(create(&path, 0o600, b"ours")), told);
        assert_eq!(fs::read(&path).expect("still there"), b"somebody's");
        assert_eq!(names(folder), ["file"]);
    }

    #[test]
    fn a_file_changed_meanwhile_is_not_replaced() {
        let (folder, path) = folder("changed", Some(b"some"));
        let standing = Standing::find(&path).expect("it is there");
        let mut file = OpenOptions::new().append(true).open(&path).expect("opened");
        file.write_all(b" more").expect("written");
        let told =
            format!("cannot replace {path}, which is as it was: something else has changed it");
        let said = said(standing.replace(b"ours"));
        assert!(said.starts_with(&told), "{said}");
        assert_eq!(fs::read(&path).expect("still there"), b"some more");
        assert_eq!(names(folder), ["file"]);
    }

    #[test]
    fn a_draft_that_gets_no_name_is_taken_away() {
        let (folder, path) = folder("unnamed", None);
        fs::create_dir(&path).expect("made");
        let mut draft = Draft::new(&folder, 0o600).expect("a draft");
        draft.fill(b"ours").expect("written");
        assert!(draft.take_the_name_of(path.as_ref()).is_err(), "a folder");
        assert_eq!(names(folder), ["file"]);
    }

    #[test]
    fn a_draft_left_behind_is_left_alone() {
        let (folder, path) = folder("left", Some(b"old"));
        let left = folder.join(format!(".beacon-{}-0.draft", process::id()));
        fs::write(&left, b"left").expect("written");
        let standing = Standing::find(&path).expect("it is there");
        standing.replace(b"ours").expect("replaced");
        assert_eq!(fs::read(&path).expect("still there"), b"ours");
        assert_eq!(fs::read(&left).expect("still there"), b"left");
        assert_eq!(names(folder).len(), 2);
    }

    #[test]
    fn permissions_stay_whatever_they_are() {
        for mode in [0o600, 0o640, 0o666, 0o755] {
            let (folder, path) = folder("mode", Some(b"old"));
            fs::set_permissions(&path, fs::Permissions::from_mode(mode)).expect("set");
            let standing = Standing::find(&path).expect("it is there");
            standing.replace(b"ours").expect("replaced");
            let about = fs::metadata(&path).expect("still there");
            assert_eq!(about.mode() & 0o777, mode);
            assert_eq!(names(folder), ["file"]);
        }
    }
}
