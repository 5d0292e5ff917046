//! Links the archive that the environment variable CHOMPHUREK_LIB names.

use std::env;
use std::path::PathBuf;

fn main() {
    println!("cargo:rerun-if-env-changed=CHOMPHUREK_LIB");
    let named = env::var_os("CHOMPHUREK_LIB").expect("CHOMPHUREK_LIB names no archive");
    let archive = PathBuf::from(named).canonicalize().expect("CHOMPHUREK_LIB: no such archive");
    let (Some(folder), Some(file)) = (archive.parent(), archive.file_name()) else {
        panic!("CHOMPHUREK_LIB names no file");
    };
    println!("cargo:rerun-if-changed={}", archive.display());
    println!("cargo:rustc-link-search=native={}", folder.display());
    println!("cargo:rustc-link-lib=static:-bundle,+verbatim={}", file.to_string_lossy());
}
