//! Reading files of records and recordings, and adding to them.

use std::fs::{self, File, Metadata, OpenOptions};
use std::io::{self, Read, Write};
use std::path::Path;

use crate::problem::Problem;

/// The whole file; `-` is standard input.
pub fn read(path: &str) -> Result<Vec<u8>, Problem> {
    if path == "-" {
        let mut bytes = Vec::new();
        let read = io::stdin().lock().read_to_end(&mut bytes);
        return match read {
            Ok(_) => Ok(bytes),
            Err(error) => Err(Problem::io("cannot read standard input", &error)),
        };
    }
    fs::read(path).map_err(|error| Problem::io(format_args!("cannot read {path}"), &error))
}

/// What is known of such a file, so that a wrong name is told before any work is done. It may turn
/// out later that it cannot be read.
pub fn look_for(path: &str) -> Result<Metadata, Problem> {
    fs::metadata(path).map_err(|error| Problem::io(format_args!("cannot read {path}"), &error))
}

/// Adds the bytes to the end of the file, or makes it.
pub fn append(path: &str, bytes: &[u8]) -> Result<(), Problem> {
    let problem = |error: io::Error| Problem::io(format_args!("cannot write {path}"), &error);
    let mut file = OpenOptions::new()
        .append(true)
        .create(true)
        .open(path)
        .map_err(problem)?;
    file.write_all(bytes).map_err(problem)
}

/// The folder that a file is in, by its path.
pub fn folder_of(path: &Path) -> &Path {
    match path.parent() {
        Some(folder) if folder != Path::new("") => folder,
        // a bare name
        _ => Path::new("."),
    }
}

/// Waits until the file's name is on the disk, which is in its folder. A folder that may not be
/// listed, or a file system that does not know how to wait for one, is no error: nothing more can be
/// done there. A disk that fails is one.
pub fn sync_folder(path: &Path) -> io::Result<()> {
    let excused = [io::ErrorKind::PermissionDenied, io::ErrorKind::InvalidInput];
    match File::open(folder_of(path)).and_then(|folder| folder.sync_all()) {
        Err(error) if excused.contains(&error.kind()) => Ok(()),
        synced => synced,
    }
}
