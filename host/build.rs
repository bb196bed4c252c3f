//! Links the archive that `rt lib` writes in `../crates/milebeacon`: its `out/libmilebeacon.a`, or the
//! one in the folder that `MILEBEACON_ARCHIVE_DIR` names.

use std::env;
use std::path::{Path, PathBuf};

const VARIABLE: &str = "MILEBEACON_ARCHIVE_DIR";

fn main() {
    println!("cargo:rerun-if-env-changed={VARIABLE}");
    let folder = env::var_os(VARIABLE).map_or_else(default_folder, PathBuf::from);
    let archive = folder.join("libmilebeacon.a");
    println!("cargo:rerun-if-changed={}", archive.display());
    if !archive.is_file() {
        eprintln!(
            "there is no {}: write it by `rt lib` in the repository's crates/milebeacon, or name its folder in {VARIABLE}",
            archive.display()
        );
        std::process::exit(1);
    }
    println!("cargo:rustc-link-search=native={}", folder.display());
    println!("cargo:rustc-link-lib=static=milebeacon");
}

fn default_folder() -> PathBuf {
    let package = env::var_os("CARGO_MANIFEST_DIR").unwrap_or_default();
    Path::new(&package).join("../crates/milebeacon/out")
}
