//! Finds the Rust, sees that it is unedited, and names its four files to lib.rs as modules. They are read where they are; none of their text is copied.

use std::env;
use std::fs::{self, File};
use std::path::{Path, PathBuf};
use std::process::Command;

/// The files of kamadak-exif 0.6.1 that are built, each with its SHA-256.
const FILES: [(&str, &str); 4] = [
    ("endian", "206c026a041d0042984b450b8a36e4adebe69570c75d839615568a91142e9b73"),
    ("util", "527575a801d962514fdc56efe5cc2384a22b768fbd70e3110e3ccb007f05c28f"),
    ("error", "a8e0106d2255ea223a2d2d5d6b3f562f73d0d8827d74f07ddc41fc7aa763f1a5"),
    ("isobmff", "0f0deae1b57a1d08ac63f2ba9f0578a4c58229fd42ed4475d43e62a79d898f82"),
];

/// The folder with the files: the one that is named, or beside the repository; there, or in its `src`.
fn source() -> PathBuf {
    println!("cargo:rerun-if-env-changed=KAMADAK_EXIF_SRC");
    let beside = Path::new(&env::var("CARGO_MANIFEST_DIR").unwrap()).join("../../shared/docs/src");
    let named = env::var_os("KAMADAK_EXIF_SRC").filter(|folder| !folder.is_empty()).map_or(beside, PathBuf::from);
    for folder in [named.clone(), named.join("src")] {
        if FILES.iter().all(|(file, _)| folder.join(file).with_extension("rs").is_file()) {
            return folder.canonicalize().unwrap();
        }
    }
    panic!("{} has no isobmff.rs, endian.rs, util.rs and error.rs of kamadak-exif 0.6.1", named.display());
}

/// By the command of that name: the standard library has no SHA-256.
fn sha256sum(path: &Path) -> String {
    let said = Command::new("sha256sum").stdin(File::open(path).unwrap()).output().expect("sha256sum does not start");
    String::from_utf8_lossy(&said.stdout).chars().take(64).collect()
}

fn main() {
    let folder = source();
    let mut modules = String::new();
    for (file, sum) in FILES {
        let path = folder.join(file).with_extension("rs");
        let found = sha256sum(&path);
        assert!(found == sum, "{} is not the file of kamadak-exif 0.6.1: its SHA-256 is {found}, and not {sum}", path.display());
        println!("cargo:rerun-if-changed={}", path.display());
        modules += &format!("#[allow(dead_code)]\n#[path = {:?}]\nmod {file};\n", path.display().to_string());
    }
    fs::write(Path::new(&env::var("OUT_DIR").unwrap()).join("modules.rs"), modules).unwrap();
}
