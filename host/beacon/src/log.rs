//! The file that a recording is written to while records settle.

use std::fs::{File, OpenOptions};
use std::io::{self, Write};

use milebeacon::ENTRY_BYTES;

use crate::files::sync_folder;
use crate::problem::Problem;

/// Where entries go: a new file, or nowhere.
pub struct Log<'a>(Option<(&'a str, File)>);

impl<'a> Log<'a> {
    /// A log in a new file, or nowhere if there is no path.
    ///
    /// A file that is there already stays as it is. A recording is of one ledger from its start, so
    /// there is nothing to be added to another; and it is evidence, which is not to be lost.
    pub fn new(path: Option<&'a str>) -> Result<Log<'a>, Problem> {
        Ok(Log(match path {
            Some(path) => Some((path, create(path)?)),
            None => None,
        }))
    }

    /// Waits until what was written is on the disk, and the new file's name in its folder.
    pub fn sync(&self) -> Result<(), Problem> {
        match &self.0 {
            Some((path, file)) => synced(path, file)
                .map_err(|error| Problem::io(format_args!("cannot write {path}"), &error)),
            None => Ok(()),
        }
    }

    /// Ends the log after an entry that could not be written: cuts off what there is of it, and
    /// waits until the others are on the disk. Says how that leaves the file; what fails now must
    /// not hide what failed first.
    pub fn break_off(&self) -> String {
        let (path, file) = match &self.0 {
            Some(log) => log,
            None => return "nothing is recorded".to_owned(),
        };
        let mut state = format!("{path} has the answers printed");
        state += &match cut_to_whole_entries(file) {
            Ok(()) => " and nothing else".to_owned(),
            Err(error) => {
                format!(" and maybe a piece of an entry, which cannot be cut off: {error}")
            }
        };
        if let Err(error) = synced(path, file) {
            state += &format!("; it may not be on the disk: {error}");
        }
        state
    }
}

fn cut_to_whole_entries(file: &File) -> io::Result<()> {
    let length = file.metadata()?.len();
    match length % ENTRY_BYTES as u64 {
        0 => Ok(()),
        cut => file.set_len(length - cut),
    }
}

fn synced(path: &str, file: &File) -> io::Result<()> {
    file.sync_all()?;
    sync_folder(path.as_ref())
}

fn create(path: &str) -> Result<File, Problem> {
    if path == "-" {
        let line = "--record needs a file: standard output has the answers";
        return Err(Problem::Usage(line.to_owned()));
    }
    let opened = OpenOptions::new().write(true).create_new(true).open(path);
    opened.map_err(|error| match error.kind() {
        io::ErrorKind::AlreadyExists => Problem::Input(format!(
            "{path} is there already and was left as it is; nothing was settled"
        )),
        _ => Problem::io(format_args!("cannot write {path}"), &error),
    })
}

// Each write goes to the file at once: a tool that is stopped leaves what it has settled.
impl Write for &Log<'_> {
    fn write(&mut self, bytes: &[u8]) -> io::Result<usize> {
        match &self.0 {
            Some((_, file)) => { file }.write(bytes),
            None => Ok(bytes.len()),
        }
    }

    fn flush(&mut self) -> io::Result<()> {
        Ok(())
    }
}

#[cfg(test)]
mod tests {
    use super::*;
    use std::{env, fs, process};

    /// A file of the test's own, of so many bytes.
    fn file(name: &str, length: usize) -> String {
        let path = env::temp_dir().join(format!("beacon-{}-{name}", process::id()));
        fs::write(&path, vec![7; length]).expect("written");
        path.to_str().expect("a readable path").to_owned()
    }

    #[test]
    fn a_piece_of_an_entry_is_cut_off() {
        for (length, whole) in [(0, 0), (1, 0), (116, 0), (117, 117), (350, 234)] {
            let path = file("cut", length);
            let opened = OpenOptions::new().write(true).open(&path).expect("it is");
            let state = Log(Some((&path, opened))).break_off();
            assert_eq!(
                state,
                format!("{path} has the answers printed and nothing else")
            );
            assert_eq!(fs::read(&path).expect("still there"), vec![7; whole]);
            fs::remove_file(&path).expect("removed");
        }
    }

    #[test]
    fn what_cannot_be_cut_off_or_synced_is_told() {
        // one that may not be written, and one that is on no disk
        let path = file("kept", 118);
        let opened = File::open(&path).expect("it is there");
        let state = Log(Some((&path, opened))).break_off();
        let told =
            " has the answers printed and maybe a piece of an entry, which cannot be cut off: ";
        assert!(state.starts_with(&format!("{path}{told}")), "{state}");
        assert!(!state.contains("; it may not be on the disk"), "{state}");
        assert_eq!(fs::read(&path).expect("still there").len(), 118);
        fs::remove_file(&path).expect("removed");

        let opened = File::open("/dev/full").expect("it is there");
        let log = Log(Some(("/dev/full", opened)));
        let state = log.break_off();
        let told =
            "/dev/full has the answers printed and nothing else; it may not be on the disk: ";
        assert!(state.starts_with(told), "{state}");
        assert!(log.sync().is_err());
    }
}
