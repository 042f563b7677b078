//! Links the archive `libboard.a`: from the folder that OIVARNUM_ARCHIVE
//! names, or else from where `bash tools/build` leaves it.

use std::path::PathBuf;
use std::process::exit;

const VARIABLE: &str = "OIVARNUM_ARCHIVE";
const USUAL: &str = "../../target/staticlib";

fn main() {
    println!("cargo:rerun-if-env-changed={VARIABLE}");
    let folder = PathBuf::from(std::env::var_os(VARIABLE).unwrap_or_else(|| USUAL.into()));
    let archive = folder.join("libboard.a");
    let Ok(archive) = archive.canonicalize() else {
        eprintln!("There is no archive {}.", archive.display());
        eprintln!("Make it by `bash tools/build`, or let {VARIABLE} name its folder.");
        exit(1);
    };
    println!("cargo:rerun-if-changed={}", archive.display());
    if let Some(folder) = archive.parent() {
        println!("cargo:rustc-link-search=native={}", folder.display());
    }
    println!("cargo:rustc-link-lib=static=board");
}
