//! Finds the proved archive, libhestovane.a, and has it linked: in the folder that
//! HESTOVANE_LIB_DIR names, or, where that is not set, in ../target/native, where `./library`
//! leaves it. It never builds or guesses one: without an archive it stops.

use std::env;
use std::path::{Path, PathBuf};
use std::process::exit;

const ARCHIVE: &str = "libhestovane.a";

const ONE_STEP: &str = "\
One step makes it, with rt on the path: ./library in the folder above this crate,
or ./library DIR for another place, which HESTOVANE_LIB_DIR then names by its whole path.";

fn main() {
    let folder = folder();
    let archive = folder.join(ARCHIVE);
    println!("cargo:rerun-if-env-changed=HESTOVANE_LIB_DIR");
    println!("cargo:rerun-if-changed={}", archive.display());
    if !archive.is_file() {
        eprintln!("There is no {ARCHIVE} in {}.\n{ONE_STEP}", folder.display());
        exit(1);
    }
    println!("cargo:rustc-link-search=native={}", folder.display());
    println!("cargo:rustc-link-lib=static=hestovane");
}

/// A named folder is the only one looked at: to link another archive than the one named would go
/// unseen.
fn folder() -> PathBuf {
    match env::var_os("HESTOVANE_LIB_DIR") {
        Some(named) => PathBuf::from(named),
        None => project().join("target").join("native"),
    }
}

/// The folder above this crate.
fn project() -> PathBuf {
    let here = env::var_os("CARGO_MANIFEST_DIR").expect("cargo names the crate's folder");
    let above = Path::new(&here).parent();
    above.expect("the crate stands in a folder").to_path_buf()
}
