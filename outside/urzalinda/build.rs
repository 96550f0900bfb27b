//! Links the proved library: the archive that URZALINDA_LIB names, or else the one that `rt lib` leaves in crates/driver.

use std::env;
use std::fs;
use std::path::{Path, PathBuf};

fn main() {
    println!("cargo:rerun-if-env-changed=URZALINDA_LIB");
    let built = Path::new(env!("CARGO_MANIFEST_DIR")).join("../../crates/driver/out/libdriver.a");
    let named = env::var_os("URZALINDA_LIB").map_or(built, PathBuf::from);
    let archive =
        fs::canonicalize(&named).unwrap_or_else(|error| panic!("{}: {error}. `rt lib` in crates/driver builds it", named.display()));
    println!("cargo:rerun-if-changed={}", archive.display());
    let (Some(folder), Some(name)) = (archive.parent(), library_name(&archive)) else {
        panic!("{}: no archive of the form libNAME.a", archive.display());
    };
    println!("cargo:rustc-link-search=native={}", folder.display());
    println!("cargo:rustc-link-lib=static={name}");
}

/// NAME of libNAME.a.
fn library_name(archive: &Path) -> Option<&str> {
    archive.file_name()?.to_str()?.strip_prefix("lib")?.strip_suffix(".a")
}
