//! Links the archive that COINBARROW_ARCHIVE names: bench/run makes it and says where it is.

use std::env;
use std::path::PathBuf;

fn main() {
    println!("cargo:rerun-if-env-changed=COINBARROW_ARCHIVE");
    let archive = PathBuf::from(env::var_os("COINBARROW_ARCHIVE").expect("COINBARROW_ARCHIVE names no archive: start bench/run"));
    println!("cargo:rerun-if-changed={}", archive.display());
    println!("cargo:rustc-link-search=native={}", archive.parent().unwrap().display());
    println!("cargo:rustc-link-lib=static=coinbarrow");
}
